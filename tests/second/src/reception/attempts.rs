//! Made attempts: every event on every record, and what is refused.

use super::record::{call_of, watched, Call, Phase, Record, ENDING, FREE, IDLE};
use super::table::{Event, What};
use super::wire::{attempt_cases, Case};
use crate::good;
use crate::random::Random;
use crate::sheet::{Sheet, SEATS};
use crate::values;

/// Seats that are above all sheets.
const ABOVE: [u8; 9] = [8, 9, 15, 16, 64, 127, 128, 254, 255];

/// Every event on a stream, by seats below `seats`.
pub fn events(seats: u8, stream: u8) -> Vec<Event> {
    let mut all: Vec<What> = (0..seats).flat_map(|by| [What::Request { by }, What::End { by }]).collect();
    all.extend([What::Open, What::T11Expired, What::Release]);
    all.extend([false, true].map(|ack| What::EndResponse { ack }));
    all.into_iter().map(|what| Event { stream, what }).collect()
}

/// Every phase with every byte.
pub fn records() -> impl Iterator<Item = Record> {
    let phases = [Phase::Free, Phase::Idle, Phase::Watched, Phase::Ending].into_iter();
    phases.flat_map(|phase| (0..=255).map(move |receivers| Record { phase, receivers }))
}

/// The legal records of a stream.
pub fn legal(call: Call, stream: u8) -> Vec<Record> {
    records().filter(|record| call.is_legal(stream, *record)).collect()
}

/// The call of a good sheet.
pub fn call_in(sheet: &Sheet) -> Call {
    call_of(sheet).expect("a good sheet")
}

/// Every event of every seat on every legal record of every stream.
pub fn all(sheet: &Sheet) -> Vec<(Record, Event)> {
    let call = call_in(sheet);
    let mut attempts = vec![];
    for stream in 0..call.seats {
        for seen in legal(call, stream) {
            attempts.extend(events(call.seats, stream).into_iter().map(|event| (seen, event)));
        }
    }
    attempts
}

/// Every record that is not legal, for every stream, with an event by chance.
fn with_illegal_records(random: &mut Random, sheet: &Sheet) -> Vec<(Record, Event)> {
    let call = call_in(sheet);
    let mut attempts = vec![];
    for stream in 0..call.seats {
        let events = events(call.seats, stream);
        let illegal = records().filter(|record| !call.is_legal(stream, *record));
        attempts.extend(illegal.map(|seen| (seen, *random.pick(&events))));
    }
    attempts
}

/// Every event on streams off the sheet, and of seats off the sheet on every stream; on records that would do.
fn with_other_seats(sheet: &Sheet) -> Vec<(Record, Event)> {
    let call = call_in(sheet);
    let mut attempts = vec![];
    for other in (call.seats..SEATS as u8).chain(ABOVE) {
        let mut events = events(call.seats, other);
        for stream in 0..call.seats {
            events.extend([What::Request { by: other }, What::End { by: other }].map(|what| Event { stream, what }));
        }
        attempts.extend([FREE, IDLE, ENDING].iter().flat_map(|seen| events.iter().map(|event| (*seen, *event))));
        let watchers = events.iter().map(|event| (watched(if event.stream == 0 { 2 } else { 1 }), *event));
        attempts.extend(watchers.filter(|(seen, event)| call.is_legal(event.stream, *seen)));
    }
    attempts
}

/// A few attempts of all sorts: good ones, on any record, and by any seat.
fn some(random: &mut Random, seats: u8) -> Vec<(Record, Event)> {
    let all: Vec<Record> = records().collect();
    let [stream, by, other] = [seats, seats, u8::MAX].map(|bound| random.below(bound.into()) as u8);
    let event = *random.pick(&events(seats, stream));
    let by_other = Event { stream, what: What::End { by: other } };
    let request = Event { stream, what: What::Request { by } };
    let on_other = Event { stream: other, ..event };
    vec![(FREE, event), (IDLE, event), (IDLE, request), (*random.pick(&all), event), (IDLE, by_other), (IDLE, on_other)]
}

/// Under each count of seats with each limit every attempt; and all that is refused.
pub fn systematic(random: &mut Random) -> Vec<Case> {
    let mut cases = vec![];
    for seats in 1..=SEATS {
        let mut sheet = good::sheet(random, seats);
        for limit in 1..=SEATS as u32 {
            sheet.set("limit", limit);
            cases.extend(attempt_cases(&sheet, &all(&sheet)));
            cases.extend(attempt_cases(&sheet, &with_illegal_records(random, &sheet)));
            cases.extend(attempt_cases(&sheet, &with_other_seats(&sheet)));
        }
        for value in values::with_other_numbers_or_ssrcs(&sheet) {
            cases.push(Case::Attempts(value, some(random, seats as u8)));
        }
    }
    cases
}

#[cfg(test)]
mod tests {
    use super::*;
    use std::collections::HashSet;

    #[test]
    fn every_event_and_every_record_once() {
        for (seats, count) in [(1, 7), (3, 11), (8, 21)] {
            assert_eq!(events(seats, 0).into_iter().collect::<HashSet<Event>>().len(), count);
        }
        assert_eq!(records().collect::<HashSet<Record>>().len(), 1024);
        assert_eq!(legal(Call { seats: 8, limit: 8 }, 7).len(), 130);
        assert_eq!(legal(Call { seats: 8, limit: 1 }, 0).len(), 10);
        assert_eq!(legal(Call { seats: 1, limit: 1 }, 0), [FREE, IDLE, ENDING]);
    }
}
