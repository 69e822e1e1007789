//! Made families of schedules: every one of two routines with so many events on stream 0, and P13 among them.

use super::attempts;
use super::octets::SCHEDULE;
use super::record::{watched, Record, Records, ENDING, FREE, IDLE};
use super::schedules::{self, Schedule};
use super::table::{Event, What};
use super::wire::{schedule_cases, Case};
use crate::bench::sheet_s;
use crate::sheet::Sheet;

const REQUEST_BY_1: Event = Event { stream: 0, what: What::Request { by: 1 } };
const T11_EXPIRED: Event = Event { stream: 0, what: What::T11Expired };

/// Routine 0 reads for the request, routine 1 stores T11, the request's store is stale, and the request is read and
/// worked out again; then routine 1 tries to open the stream.
pub const P13: Schedule = Schedule {
    events: [REQUEST_BY_1, REQUEST_BY_1, T11_EXPIRED, Event { stream: 0, what: What::Open }],
    order: 0b1100_0110,
};

/// What P13 gives, from document 01: the request is stale; worked out again, it is a reject with cause 1; T11 is an end
/// request with cause 8 that starts T3; the open is discarded; and stream 0 is Ending.
#[rustfmt::skip]
pub const P13_SAID: [u8; SCHEDULE] = [
    10, 0, 0, 0, 0, 0, 0, 0, 0, 0, 0, 0, 0, 0,
    0, 0, 0, 0, 0, 0, 0, 2, 2, 0, 0, 1, 0, 0,
    0, 0, 0, 0, 0, 0, 0, 4, 5, 255, 0, 8, 0, 1,
    0, 0, 0, 0, 0, 0, 0, 8, 0, 255, 255, 255, 0, 0,
    3, 0, 2, 4, 3, 0, 0, 0, 0, 0, 0, 0, 0, 0, 0, 0,
];

/// Stands for no event: it is on a stream off the sheet and refused, so that what its routine had is stored again.
pub const NO_EVENT: Event = Event { stream: 7, what: What::Open };

/// Stream 0's record beside others, which no schedule here changes.
pub fn start(first: Record) -> Records {
    [first, watched(4), ENDING, FREE, FREE, FREE, FREE, FREE]
}

pub fn with_limit(limit: u32) -> Sheet {
    let mut sheet = sheet_s();
    sheet.set("limit", limit);
    sheet
}

/// Where a case has P13.
pub fn place_of_p13(case: &Case) -> Option<usize> {
    match case {
        Case::Schedules(sheet, records, schedules) if *records == start(IDLE) && *sheet == sheet_s() => {
            schedules.iter().position(|schedule| *schedule == P13)
        }
        _ => None,
    }
}

/// Every two events against every two, in every order of the moves.
fn two_against_two(sheet: &Sheet, first: Record) -> Vec<Case> {
    let events = attempts::events(3, 0);
    let pairs: Vec<[Event; 2]> = events.iter().flat_map(|a| events.iter().map(|b| [*a, *b])).collect();
    let mut cases = vec![];
    for [a, b] in &pairs {
        let against = pairs.iter().map(|[c, d]| [*a, *b, *c, *d]);
        let schedules: Vec<Schedule> =
            against.flat_map(|events| schedules::orders().map(move |order| Schedule { events, order })).collect();
        cases.extend(schedule_cases(sheet, start(first), &schedules));
    }
    cases
}

/// Every two events against every single one, in every order of the moves; those of no event come last.
fn two_against_one(sheet: &Sheet, first: Record) -> Vec<Case> {
    let events = attempts::events(3, 0);
    let orders: Vec<u8> = schedules::orders().filter(|order| order >> 6 == 0b11).collect();
    let mut all = vec![];
    for a in &events {
        for b in &events {
            for c in &events {
                all.extend(orders.iter().map(|order| Schedule { events: [*a, *b, *c, NO_EVENT], order: *order }));
            }
        }
    }
    schedule_cases(sheet, start(first), &all)
}

/// Two events against two from Idle under S; two against one from every legal record, under S and with limit 2.
pub fn systematic() -> Vec<Case> {
    let mut cases = two_against_two(&sheet_s(), IDLE);
    for limit in [1, 2] {
        let sheet = with_limit(limit);
        for first in attempts::legal(attempts::call_in(&sheet), 0) {
            cases.extend(two_against_one(&sheet, first));
        }
    }
    cases
}

#[cfg(test)]
mod tests {
    use super::*;
    use std::collections::HashSet;

    #[test]
    fn p13_has_its_octets() {
        let case = Case::Schedules(sheet_s(), start(IDLE), vec![P13]);
        assert_eq!(case.answers().body(), P13_SAID);
    }

    fn schedules_in(cases: &[Case]) -> Vec<Schedule> {
        let schedules = |case: &Case| match case {
            Case::Schedules(_, _, schedules) => schedules.clone(),
            _ => vec![],
        };
        cases.iter().flat_map(schedules).collect()
    }

    #[test]
    fn every_schedule_once() {
        let two_against_two = schedules_in(&two_against_two(&sheet_s(), IDLE));
        assert_eq!(two_against_two.len(), 1_024_870);
        assert_eq!(two_against_two.into_iter().collect::<HashSet<Schedule>>().len(), 1_024_870);
        let two_against_one = schedules_in(&two_against_one(&sheet_s(), IDLE));
        assert!(two_against_one.iter().all(|schedule| schedule.moves()[6..].iter().all(|next| next.place == 3)));
        assert_eq!(two_against_one.into_iter().collect::<HashSet<Schedule>>().len(), 19_965);
    }

    #[test]
    fn p13_is_among_the_first() {
        let found = |cases: Vec<Case>| cases.iter().filter_map(place_of_p13).count();
        assert_eq!(found(two_against_two(&sheet_s(), IDLE)), 1);
        assert_eq!(found(two_against_two(&sheet_s(), FREE)), 0);
        assert_eq!(found(two_against_one(&sheet_s(), IDLE)), 0);
    }
}
