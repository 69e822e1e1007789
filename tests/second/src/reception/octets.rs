//! Records, events, steps and what they say as octets, in the form of crates/schedules/src/said.rt.

use super::record::{Phase, Record, Records};
use super::routines::{Said, Step};
use super::schedules::{Move, Outcome, Schedule};
use super::steps::Attempt;
use super::table::{Answer, Done, Event, Timer, What};

/// How many octets the eight records take, and what a step says.
const RECORDS: usize = 16;
pub const SAID: usize = 14;

/// How many octets a step and the records after it take, and the four stores of a schedule and the records after all.
pub const STEP: usize = SAID + RECORDS;
pub const SCHEDULE: usize = 4 * SAID + RECORDS;

pub fn record(record: Record) -> [u8; 2] {
    let phase = match record.phase {
        Phase::Free => 0,
        Phase::Idle => 1,
        Phase::Watched => 2,
        Phase::Ending => 3,
    };
    [phase, record.receivers]
}

pub fn records(records: &Records) -> [u8; RECORDS] {
    std::array::from_fn(|at| record(records[at / 2])[at % 2])
}

/// What, stream, by whom, and whether an Ack is asked.
pub fn event(event: Event) -> [u8; 4] {
    let what = match event.what {
        What::Request { .. } => 1,
        What::End { .. } => 2,
        What::Open => 3,
        What::T11Expired => 4,
        What::EndResponse { .. } => 5,
        What::Release => 6,
    };
    let ack = event.what == What::EndResponse { ack: true };
    [what, event.stream, event.what.by().unwrap_or(0), u8::from(ack)]
}

/// What is to be worked out: the record seen and the event.
pub fn seen_event((seen, on): &(Record, Event)) -> Vec<u8> {
    [&record(*seen)[..], &event(*on)].concat()
}

/// What, the slot, and the event or the stream.
pub fn step(step: &Step) -> [u8; 6] {
    let (what, slot, [a, b, c, d]) = match step {
        Step::Read { slot, stream } => (1, slot, [*stream, 0, 0, 0]),
        Step::WorkOut { slot, event: on } => (2, slot, event(*on)),
        Step::Store { slot } => (3, slot, [0; 4]),
        Step::Count { slot, stream } => (4, slot, [*stream, 0, 0, 0]),
    };
    [what, *slot as u8, a, b, c, d]
}

/// The four events and the eight moves: twice the event's place, and one more for a store.
pub fn schedule(schedule: &Schedule) -> Vec<u8> {
    let events = schedule.events.into_iter().flat_map(event);
    let octet = |next: Move| 2 * next.place as u8 + u8::from(next.is_store);
    events.chain(schedule.moves().map(octet)).collect()
}

/// An attempt to store, without its answer: the stream, the record seen and the record wanted.
pub fn attempt(attempt: &Attempt) -> Vec<u8> {
    [&[attempt.stream][..], &record(attempt.seen), &record(attempt.wanted)].concat()
}

/// The sum of what stands for each timer.
fn timers(timers: &[Timer]) -> u8 {
    let octet = |timer: &Timer| match timer {
        Timer::T3 => 1,
        Timer::T5 => 2,
        Timer::T6 => 4,
        Timer::T11 => 8,
    };
    timers.iter().map(octet).sum()
}

/// What was done, kind, Result, cause, timers to stop and to start; 0, 255 or 65535 for what there is none of.
pub fn answer(answer: Answer) -> [u8; 7] {
    let done = match answer.done {
        Done::Grant => 1,
        Done::Reject => 2,
        Done::Ended => 3,
        Done::EndRequest => 4,
        Done::Freed => 5,
        Done::Opened => 6,
        Done::Released => 7,
        Done::Discarded => 8,
    };
    let [high, low] = answer.cause.unwrap_or(u16::MAX).to_be_bytes();
    let (kind, result) = (answer.kind.unwrap_or(0), answer.result.unwrap_or(u8::MAX));
    [done, kind, result, high, low, timers(answer.stops), timers(answer.starts)]
}

/// What a step says: the refusal and its place; then the stream and what is said of it, zeros where it is refused.
pub fn said(said: Result<Said, u32>) -> [u8; SAID] {
    let nothing = [0; 7];
    let (refusal, stream, [a, b], [c, d], [e, f, g, h, i, j, k]) = match said {
        Err(refusal) => (refusal as u8, 0, [0; 2], [0; 2], nothing),
        Ok(Said::Read { stream, record: read }) => (0, stream, record(read), [0; 2], nothing),
        Ok(Said::WorkOut(out)) => (0, out.stream, record(out.seen), record(out.wanted), answer(out.answer)),
        Ok(Said::Store { stream, answer: stored }) => (0, stream, [0; 2], [0; 2], answer(stored)),
        Ok(Said::Count { stream, count }) => (0, stream, [count as u8, 0], [0; 2], nothing),
    };
    [refusal, 0, stream, a, b, c, d, e, f, g, h, i, j, k]
}

/// What a step says, and the records after it.
pub fn said_with((step, after): &(Result<Said, u32>, Records)) -> Vec<u8> {
    [&said(*step)[..], &records(after)].concat()
}

/// What the four stores of a schedule say, and the records after all.
pub fn outcome(outcome: &Outcome) -> Vec<u8> {
    [&outcome.stores.map(said).concat()[..], &records(&outcome.records)].concat()
}

#[cfg(test)]
mod tests {
    use super::*;
    use crate::reception::families::{start, P13};
    use crate::reception::record::{watched, ENDING, IDLE};
    use crate::reception::routines::AT_FIRST;
    use crate::reception::table::DISCARDED;

    #[test]
    fn events() {
        let on = |what| event(Event { stream: 5, what });
        assert_eq!(on(What::Request { by: 7 }), [1, 5, 7, 0]);
        assert_eq!(on(What::End { by: 6 }), [2, 5, 6, 0]);
        assert_eq!([What::Open, What::T11Expired].map(on), [[3, 5, 0, 0], [4, 5, 0, 0]]);
        assert_eq!([false, true].map(|ack| on(What::EndResponse { ack })), [[5, 5, 0, 0], [5, 5, 0, 1]]);
        assert_eq!(on(What::Release), [6, 5, 0, 0]);
        assert_eq!(seen_event(&(watched(6), AT_FIRST)), [2, 6, 4, 0, 0, 0]);
    }

    #[test]
    fn steps() {
        assert_eq!(step(&Step::Read { slot: 1, stream: 4 }), [1, 1, 4, 0, 0, 0]);
        let on = Event { stream: 2, what: What::EndResponse { ack: true } };
        assert_eq!(step(&Step::WorkOut { slot: 0, event: on }), [2, 0, 5, 2, 0, 1]);
        assert_eq!(step(&Step::Store { slot: 1 }), [3, 1, 0, 0, 0, 0]);
        assert_eq!(step(&Step::Count { slot: 0, stream: 255 }), [4, 0, 255, 0, 0, 0]);
    }

    #[test]
    fn p13_as_a_schedule() {
        let events = [1, 0, 1, 0, 1, 0, 1, 0, 4, 0, 0, 0, 3, 0, 0, 0];
        assert_eq!(schedule(&P13), [&events[..], &[0, 4, 5, 1, 2, 3, 6, 7]].concat());
        let in_turn = Schedule { order: 0b1111_0000, ..P13 };
        assert_eq!(schedule(&in_turn)[16..], [0, 1, 2, 3, 4, 5, 6, 7]);
    }

    #[test]
    fn what_is_said() {
        assert_eq!(said(Err(10)), [10, 0, 0, 0, 0, 0, 0, 0, 0, 0, 0, 0, 0, 0]);
        let read = Said::Read { stream: 3, record: watched(5) };
        assert_eq!(said(Ok(read)), [0, 0, 3, 2, 5, 0, 0, 0, 0, 0, 0, 0, 0, 0]);
        assert_eq!(said(Ok(Said::Count { stream: 3, count: 7 })), [0, 0, 3, 7, 0, 0, 0, 0, 0, 0, 0, 0, 0, 0]);
        let freed = Answer { done: Done::Freed, kind: Some(7), stops: &[Timer::T3, Timer::T5], ..DISCARDED };
        let store = Ok(Said::Store { stream: 3, answer: freed });
        assert_eq!(said(store), [0, 0, 3, 0, 0, 0, 0, 5, 7, 255, 255, 255, 3, 0]);
        let other = Answer { result: Some(0), cause: Some(258), starts: &[Timer::T6, Timer::T11], ..DISCARDED };
        let made = Attempt { stream: 3, seen: watched(5), wanted: ENDING, answer: other };
        assert_eq!(said(Ok(Said::WorkOut(made))), [0, 0, 3, 2, 5, 3, 0, 8, 0, 0, 1, 2, 0, 12]);
        assert_eq!(attempt(&made), [3, 2, 5, 3, 0]);
    }

    #[test]
    fn outcomes() {
        let store = Ok(Said::Store { stream: 2, answer: DISCARDED });
        let stores = [Err(9), store, Err(10), Err(12)];
        let octets = outcome(&Outcome { stores, stored: [(0, AT_FIRST); 4], records: start(IDLE) });
        let discarded = [0, 0, 2, 0, 0, 0, 0, 8, 0, 255, 255, 255, 0, 0];
        let refused = |refusal| [refusal, 0, 0, 0, 0, 0, 0, 0, 0, 0, 0, 0, 0, 0];
        assert_eq!(octets[..4 * SAID], [refused(9), discarded, refused(10), refused(12)].concat());
        assert_eq!(octets[4 * SAID..], [1, 0, 2, 4, 3, 0, 0, 0, 0, 0, 0, 0, 0, 0, 0, 0]);
        assert_eq!(said_with(&(store, start(IDLE))), [&discarded[..], &octets[4 * SAID..]].concat());
    }
}
