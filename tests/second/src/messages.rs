//! Made messages to write: of every kind, good and with faults, and into buffers of every length.

use crate::drafts::{self, Draft};
use crate::good;
use crate::packet::{kinds, MESSAGES};
use crate::random::Random;
use crate::sheet::{Sheet, SEATS};
use crate::to_write::{self, ToWrite};
use crate::values;
use crate::wire::Case;

/// How far past its packet a message has every length of buffer.
pub const PAST: usize = 8;

/// How often each set of faults is made, of other sorts each time.
const SORTS: usize = 20;

/// How many messages a sheet by chance has.
const PER_SHEET: usize = 10;

/// The message under a sheet with a set of faults: bit 0 is for refusal 5, bit 1 for 11.
fn with_faults(random: &mut Random, sheet: &Sheet, message: &ToWrite, set: usize) -> Case {
    let mut message = message.clone();
    let size = message.size(sheet);
    if set & 1 != 0 {
        to_write::spoil_name(random, &mut message);
    }
    let past = *random.pick(&[1, PAST + 1, 200]);
    let room = if set & 2 != 0 { random.below(size) } else { size + random.below(past) };
    message.case(sheet, room)
}

/// One good message of some kind, its names often among other octets.
fn any(random: &mut Random, sheet: &Sheet, kind: u32) -> ToWrite {
    let drafts = drafts::of_kind(random, sheet, kind);
    let message = ToWrite::of(sheet, random.pick(&drafts));
    match random.below(3) {
        0 => message,
        _ => to_write::moved(random, &message),
    }
}

/// A good message of each shape, of all kinds.
fn all(random: &mut Random, sheet: &Sheet) -> Vec<ToWrite> {
    let drafts: Vec<Draft> = kinds().flat_map(|kind| drafts::of_kind(random, sheet, kind)).collect();
    drafts.iter().map(|draft| to_write::moved(random, &ToWrite::of(sheet, draft))).collect()
}

/// Messages under values that no sheet reads to, and under such as differ from a sheet in one place.
fn under_other_values(random: &mut Random) -> Vec<Case> {
    let sheet = good::sheet(random, SEATS / 2);
    let mut cases = vec![];
    for value in values::with_other_numbers_or_ssrcs(&sheet) {
        for kind in kinds() {
            let (message, set) = (any(random, &sheet, kind), random.below(4));
            cases.push(with_faults(random, &value, &message, set));
        }
    }
    cases
}

/// All that is made of one message: another value in each place, written into a buffer that is too short by one, one
/// that fits or a longer one; and every set of faults.
fn about(random: &mut Random, sheet: &Sheet, message: &ToWrite) -> Vec<Case> {
    let mut cases = vec![];
    for other in to_write::with_other_values(message) {
        let size = other.size(sheet);
        let room = *random.pick(&[size - 1, size, size, size + PAST]);
        cases.push(other.case(sheet, room));
    }
    for set in 0..4 {
        cases.extend((0..SORTS).map(|_| with_faults(random, sheet, message, set)));
    }
    cases
}

/// All that is made of a message of each shape; and under a sheet of each count of seats, buffers of every length.
pub fn systematic(random: &mut Random) -> Vec<Case> {
    let mut cases = under_other_values(random);
    for seats in 1..=SEATS {
        let sheet = good::sheet(random, seats);
        for message in all(random, &sheet) {
            cases.extend((0..=message.size(&sheet) + PAST).map(|room| message.case(&sheet, room)));
        }
    }
    let sheet = good::sheet(random, SEATS);
    for message in all(random, &sheet) {
        cases.extend(about(random, &sheet, &message));
    }
    cases
}

/// Some messages under a sheet by chance; at times its value is spoilt.
pub fn some(random: &mut Random) -> Vec<Case> {
    let seats = random.below(SEATS) + 1;
    let sheet = good::sheet(random, seats);
    let value = if random.once_in(5) { values::spoilt(random, &sheet) } else { sheet.clone() };
    let mut one = || {
        let kind = random.within(1, MESSAGES.len() as u32);
        let (message, set) = (any(random, &sheet, kind), *random.pick(&[0, 0, 0, 1, 2, 3]));
        with_faults(random, &value, &message, set)
    };
    (0..PER_SHEET).map(|_| one()).collect()
}
