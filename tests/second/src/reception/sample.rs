//! The few cases about reception that the program `schedules` is run on by itself: crates/schedules/stdin, and their answers in stdout.

use super::families::{self, NO_EVENT, P13};
use super::record::{watched, Record, ENDING, FREE, IDLE};
use super::routines::Step;
use super::schedules::Schedule;
use super::steps::Attempt;
use super::table::{Event, What, DISCARDED};
use super::wire::Case;
use crate::bench::sheet_s;
use crate::sheet::Sheet;

fn on_stream_0((seen, what): (Record, What)) -> (Record, Event) {
    (seen, Event { stream: 0, what })
}

/// P6 to P12.
fn bench() -> Vec<(Record, Event)> {
    let [by_0, by_1, by_2] = [0, 1, 2].map(|by| What::Request { by });
    let cases = [
        (IDLE, by_1),
        (watched(2), by_1),
        (watched(2), by_2),
        (IDLE, by_0),
        (watched(2), What::T11Expired),
        (IDLE, What::T11Expired),
        (watched(2), What::End { by: 1 }),
    ];
    cases.map(on_stream_0).to_vec()
}

/// Rows of the table that P6 to P12 have not.
fn others() -> Vec<(Record, Event)> {
    let [with_ack, without] = [true, false].map(|ack| What::EndResponse { ack });
    let cases = [
        (FREE, What::Open),
        (FREE, What::End { by: 1 }),
        (ENDING, with_ack),
        (ENDING, without),
        (IDLE, with_ack),
        (IDLE, What::Release),
        (watched(4), What::Release),
        (ENDING, What::Release),
    ];
    cases.map(on_stream_0).to_vec()
}

/// Attempts that S refuses with 9: seats off the sheet, and records that are not legal.
fn refused() -> Vec<(Record, Event)> {
    let request = What::Request { by: 1 };
    let cases = [
        (IDLE, What::Request { by: 3 }),
        (IDLE, What::End { by: 255 }),
        (Record { receivers: 2, ..IDLE }, request),
        (watched(0), request),
        (watched(1), request),
        (watched(8), request),
        (watched(6), request),
    ];
    let mut attempts = cases.map(on_stream_0).to_vec();
    attempts.push((FREE, NO_EVENT));
    attempts
}

/// P13 by its steps, up to the store that is stale.
pub fn up_to_the_stale_store() -> Vec<Step> {
    let [request, _, t11, _] = P13.events;
    vec![
        Step::Read { slot: 0, stream: 0 },
        Step::WorkOut { slot: 0, event: request },
        Step::Read { slot: 1, stream: 0 },
        Step::WorkOut { slot: 1, event: t11 },
        Step::Store { slot: 1 },
        Step::Store { slot: 0 },
    ]
}

/// The first attempt of a slot, P13 by its steps, and behind them: a store once more, a working-out that is refused
/// and leaves its slot, and counts.
fn steps() -> Vec<Step> {
    let behind = [
        Step::Read { slot: 0, stream: 0 },
        Step::WorkOut { slot: 0, event: P13.events[0] },
        Step::Store { slot: 0 },
        Step::WorkOut { slot: 0, event: NO_EVENT },
        Step::Store { slot: 0 },
        Step::Store { slot: 1 },
        Step::Count { slot: 1, stream: 1 },
        Step::Count { slot: 1, stream: 3 },
    ];
    [&[Step::Store { slot: 0 }][..], &up_to_the_stale_store(), &behind].concat()
}

/// P13, and one whose last read is refused, so that T11 is stored again.
fn schedules() -> Vec<Schedule> {
    let [request, _, t11, _] = P13.events;
    vec![P13, Schedule { events: [request, request, t11, NO_EVENT], order: 0b1111_0000 }]
}

/// Stores over Idle: one that takes, one that is stale, and such as have a record seen or wanted that is not legal,
/// even where they are stale as well.
fn stores() -> Vec<Attempt> {
    let cases = [(IDLE, watched(2)), (FREE, IDLE), (IDLE, watched(6)), (watched(1), IDLE), (FREE, watched(6))];
    cases.map(|(seen, wanted)| Attempt { stream: 0, seen, wanted, answer: DISCARDED }).to_vec()
}

/// Every question about reception, with P6 to P13 among the attempts, the steps and the schedules.
pub fn cases() -> Vec<Case> {
    let (s, start) = (sheet_s(), families::start(IDLE));
    vec![
        Case::Attempts(s.clone(), bench()),
        Case::Attempts(families::with_limit(2), bench()),
        Case::Attempts(s.clone(), others()),
        Case::Attempts(s.clone(), refused()),
        Case::Attempts(Sheet::ZERO, refused()),
        Case::Steps(s.clone(), start, steps()),
        Case::Steps(Sheet::ZERO, start, steps()),
        Case::Schedules(s.clone(), start, schedules()),
        Case::Schedules(Sheet::ZERO, start, schedules()),
        Case::Stores(s, start, stores()),
        Case::Stores(Sheet::ZERO, start, stores()),
    ]
}

#[cfg(test)]
mod tests {
    use super::*;
    use crate::asked::Asked;

    #[test]
    fn p6_to_p12_have_their_octets() {
        let p6_to_p12 = [
            [0, 0, 0, 1, 0, 2, 2, 1, 2, 1, 255, 255, 10, 4],
            [0, 0, 0, 2, 2, 2, 2, 1, 2, 1, 255, 255, 0, 0],
            [0, 0, 0, 2, 2, 2, 2, 2, 2, 0, 0, 0, 0, 0],
            [0, 0, 0, 1, 0, 1, 0, 2, 2, 0, 0, 1, 0, 0],
            [0, 0, 0, 2, 2, 2, 2, 8, 0, 255, 255, 255, 0, 0],
            [0, 0, 0, 1, 0, 3, 0, 4, 5, 255, 0, 8, 0, 1],
            [0, 0, 0, 2, 2, 1, 0, 3, 4, 255, 255, 255, 0, 8],
        ];
        assert_eq!(Case::Attempts(sheet_s(), bench()).expected(), p6_to_p12.concat());
        let mut with_limit_2 = p6_to_p12;
        with_limit_2[2] = [0, 0, 0, 2, 2, 2, 6, 1, 2, 1, 255, 255, 2, 4];
        assert_eq!(Case::Attempts(families::with_limit(2), bench()).expected(), with_limit_2.concat());
    }

    #[test]
    fn p13_by_its_steps() {
        let said = Case::Steps(sheet_s(), families::start(IDLE), steps()).expected();
        let step = |at: usize| said[at * 30..][..30].to_vec();
        let idle = [1, 0, 2, 4, 3, 0, 0, 0, 0, 0, 0, 0, 0, 0, 0, 0];
        let ending = [3, 0, 2, 4, 3, 0, 0, 0, 0, 0, 0, 0, 0, 0, 0, 0];
        let stale = [10, 0, 0, 0, 0, 0, 0, 0, 0, 0, 0, 0, 0, 0];
        let rejected = [0, 0, 0, 0, 0, 0, 0, 2, 2, 0, 0, 1, 0, 0];
        assert_eq!(step(0), [&stale[..], &idle].concat());
        assert_eq!(step(1), [&[0, 0, 0, 1, 0, 0, 0, 0, 0, 0, 0, 0, 0, 0][..], &idle].concat());
        assert_eq!(step(2), [&[0, 0, 0, 1, 0, 2, 2, 1, 2, 1, 255, 255, 10, 4][..], &idle].concat());
        assert_eq!(step(4), [&[0, 0, 0, 1, 0, 3, 0, 4, 5, 255, 0, 8, 0, 1][..], &idle].concat());
        assert_eq!(step(5), [&[0, 0, 0, 0, 0, 0, 0, 4, 5, 255, 0, 8, 0, 1][..], &ending].concat());
        assert_eq!(step(6), [&stale[..], &ending].concat());
        assert_eq!(step(7), [&[0, 0, 0, 3, 0, 0, 0, 0, 0, 0, 0, 0, 0, 0][..], &ending].concat());
        assert_eq!(step(8), [&[0, 0, 0, 3, 0, 3, 0, 2, 2, 0, 0, 1, 0, 0][..], &ending].concat());
        assert_eq!(step(9), [&rejected[..], &ending].concat());
        assert_eq!(step(10), [&[9, 0, 0, 0, 0, 0, 0, 0, 0, 0, 0, 0, 0, 0][..], &ending].concat());
        assert_eq!(step(11), [&rejected[..], &ending].concat());
        assert_eq!(step(13), [&[0, 0, 1, 1, 0, 0, 0, 0, 0, 0, 0, 0, 0, 0][..], &ending].concat());
    }
}
