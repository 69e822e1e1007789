//! Made attempts to store, also such as no working out gives.

use super::families::{start, with_limit};
use super::record::{watched, Record, ENDING, FREE, IDLE};
use super::steps::Attempt;
use super::table::DISCARDED;
use super::wire::{store_cases, Case};
use crate::bench::sheet_s;
use crate::values;

/// Records of every sort, for stream 0 under S: legal, with limit 2 only, and not.
const RECORDS: [Record; 12] = [
    FREE,
    IDLE,
    ENDING,
    watched(2),
    watched(4),
    watched(6),
    watched(0),
    watched(1),
    watched(8),
    Record { receivers: 2, ..FREE },
    Record { receivers: 4, ..IDLE },
    Record { receivers: 128, ..ENDING },
];

/// Streams on the sheet, off it, and above all records.
const STREAMS: [u8; 7] = [0, 1, 2, 3, 7, 8, 255];

fn all(streams: &[u8]) -> Vec<Attempt> {
    let mut stores = vec![];
    for stream in streams {
        for seen in RECORDS {
            stores.extend(RECORDS.map(|wanted| Attempt { stream: *stream, seen, wanted, answer: DISCARDED }));
        }
    }
    stores
}

/// Every record wanted over every record where every record was seen, under S and with limit 2; and some of them under
/// values that no sheet reads to.
pub fn systematic() -> Vec<Case> {
    let mut cases = vec![];
    for own in RECORDS {
        for limit in [1, 2] {
            cases.extend(store_cases(&with_limit(limit), start(own), &all(&STREAMS)));
        }
    }
    let some: Vec<Attempt> = all(&[0, 8]).into_iter().step_by(7).collect();
    for value in values::with_other_numbers_or_ssrcs(&sheet_s()) {
        cases.extend(store_cases(&value, start(IDLE), &some));
    }
    cases
}
