//! The event table, written from document 01 alone: what an event makes of a record, and the answer.

use super::record::{watched, Phase, Record, ENDING, FREE, IDLE};

#[derive(Clone, Copy, PartialEq, Eq, Hash, Debug)]
pub enum What {
    Request { by: u8 },
    End { by: u8 },
    Open,
    T11Expired,
    EndResponse { ack: bool },
    Release,
}

#[derive(Clone, Copy, PartialEq, Eq, Hash, Debug)]
pub struct Event {
    pub stream: u8,
    pub what: What,
}

#[derive(Clone, Copy, PartialEq, Eq, Debug)]
pub enum Timer {
    T3,
    T5,
    T6,
    T11,
}

#[derive(Clone, Copy, PartialEq, Eq, Debug)]
pub enum Done {
    Grant,
    Reject,
    Ended,
    EndRequest,
    Freed,
    Opened,
    Released,
    Discarded,
}

/// What was done; the kind of the message to send, with its Result and its cause; the timers to stop and to start.
#[derive(Clone, Copy, PartialEq, Eq, Debug)]
pub struct Answer {
    pub done: Done,
    pub kind: Option<u8>,
    pub result: Option<u8>,
    pub cause: Option<u16>,
    pub stops: &'static [Timer],
    pub starts: &'static [Timer],
}

pub const DISCARDED: Answer =
    Answer { done: Done::Discarded, kind: None, result: None, cause: None, stops: &[], starts: &[] };

impl What {
    /// The seat that asks, where it is not the stream's own.
    pub fn by(self) -> Option<u8> {
        match self {
            What::Request { by } | What::End { by } => Some(by),
            _ => None,
        }
    }
}

fn reject(cause: u16) -> Answer {
    Answer { done: Done::Reject, kind: Some(2), result: Some(0), cause: Some(cause), ..DISCARDED }
}

fn request(limit: u32, seen: Record, s: u8, r: u8) -> (Record, Answer) {
    let grant = Answer { done: Done::Grant, kind: Some(2), result: Some(1), ..DISCARDED };
    if r == s || seen.phase == Phase::Free || seen.phase == Phase::Ending {
        (seen, reject(1))
    } else if seen.has(r) {
        (seen, grant)
    } else if seen.count() >= limit {
        (seen, reject(0))
    } else {
        let stops: &[Timer] = if seen.phase == Phase::Idle { &[Timer::T5, Timer::T11] } else { &[Timer::T5] };
        (watched(seen.receivers | 1 << r), Answer { stops, starts: &[Timer::T6], ..grant })
    }
}

fn end(seen: Record, r: u8) -> (Record, Answer) {
    let ended = Answer { done: Done::Ended, kind: Some(4), ..DISCARDED };
    if !seen.has(r) {
        return (seen, ended);
    }
    match seen.receivers & !(1 << r) {
        0 => (IDLE, Answer { starts: &[Timer::T11], ..ended }),
        left => (watched(left), ended),
    }
}

fn release(seen: Record) -> (Record, Answer) {
    let released = Answer { done: Done::Released, ..DISCARDED };
    match seen.phase {
        Phase::Free => (seen, DISCARDED),
        Phase::Idle => (FREE, Answer { stops: &[Timer::T11], ..released }),
        Phase::Watched => (FREE, released),
        Phase::Ending => (FREE, Answer { stops: &[Timer::T3], ..released }),
    }
}

/// The record wanted and the answer, for an event of seats below eight on a legal record.
pub fn table(limit: u32, seen: Record, event: Event) -> (Record, Answer) {
    match (event.what, seen.phase) {
        (What::Request { by }, _) => request(limit, seen, event.stream, by),
        (What::End { by }, _) => end(seen, by),
        (What::Open, Phase::Free) => (IDLE, Answer { done: Done::Opened, starts: &[Timer::T11], ..DISCARDED }),
        (What::T11Expired, Phase::Idle) => {
            let done = Done::EndRequest;
            (ENDING, Answer { done, kind: Some(5), cause: Some(8), starts: &[Timer::T3], ..DISCARDED })
        }
        (What::EndResponse { ack }, Phase::Ending) => {
            let kind = if ack { Some(7) } else { None };
            (FREE, Answer { done: Done::Freed, kind, stops: &[Timer::T3], ..DISCARDED })
        }
        (What::Release, _) => release(seen),
        _ => (seen, DISCARDED),
    }
}

#[cfg(test)]
mod tests {
    use super::*;
    use Timer::{T11, T3, T5, T6};

    const ENDED: Answer = Answer { done: Done::Ended, kind: Some(4), ..DISCARDED };

    /// An event on stream 0.
    fn case(limit: u32, seen: Record, what: What) -> (Record, Answer) {
        table(limit, seen, Event { stream: 0, what })
    }

    fn rejected(cause: u16) -> Answer {
        Answer { done: Done::Reject, kind: Some(2), result: Some(0), cause: Some(cause), stops: &[], starts: &[] }
    }

    fn granted(stops: &'static [Timer], starts: &'static [Timer]) -> Answer {
        Answer { done: Done::Grant, kind: Some(2), result: Some(1), cause: None, stops, starts }
    }

    fn plain(done: Done, stops: &'static [Timer], starts: &'static [Timer]) -> Answer {
        Answer { done, kind: None, result: None, cause: None, stops, starts }
    }

    #[test]
    fn p6_to_p12() {
        let [by_0, by_1, by_2] = [0, 1, 2].map(|by| What::Request { by });
        assert_eq!(case(1, IDLE, by_1), (watched(0x02), granted(&[T5, T11], &[T6])), "P6");
        assert_eq!(case(1, watched(0x02), by_1), (watched(0x02), granted(&[], &[])), "P7");
        assert_eq!(case(1, watched(0x02), by_2), (watched(0x02), rejected(0)), "P8");
        assert_eq!(case(2, watched(0x02), by_2), (watched(0x06), granted(&[T5], &[T6])), "P8 with limit=2");
        assert_eq!(case(1, IDLE, by_0), (IDLE, rejected(1)), "P9");
        assert_eq!(case(1, watched(0x02), What::T11Expired), (watched(0x02), plain(Done::Discarded, &[], &[])), "P10");
        let end_request = Answer { kind: Some(5), cause: Some(8), ..plain(Done::EndRequest, &[], &[T3]) };
        assert_eq!(case(1, IDLE, What::T11Expired), (ENDING, end_request), "P11");
        let end = case(1, watched(0x02), What::End { by: 1 });
        assert_eq!(end, (IDLE, Answer { starts: &[T11], ..ENDED }), "P12");
    }

    #[test]
    fn opens_and_releases() {
        assert_eq!(case(1, FREE, What::Open), (IDLE, plain(Done::Opened, &[], &[T11])));
        assert_eq!(case(1, IDLE, What::Release), (FREE, plain(Done::Released, &[T11], &[])));
        assert_eq!(case(1, watched(2), What::Release), (FREE, plain(Done::Released, &[], &[])));
        assert_eq!(case(1, ENDING, What::Release), (FREE, plain(Done::Released, &[T3], &[])));
        assert_eq!(case(1, FREE, What::Release), (FREE, DISCARDED));
    }

    #[test]
    fn end_responses() {
        let freed = plain(Done::Freed, &[T3], &[]);
        assert_eq!(case(1, ENDING, What::EndResponse { ack: false }), (FREE, freed));
        assert_eq!(case(1, ENDING, What::EndResponse { ack: true }), (FREE, Answer { kind: Some(7), ..freed }));
    }

    #[test]
    fn the_phase_is_another() {
        for seen in [FREE, IDLE, watched(2)] {
            assert_eq!(case(1, seen, What::EndResponse { ack: true }), (seen, DISCARDED));
        }
        for seen in [IDLE, watched(2), ENDING] {
            assert_eq!(case(1, seen, What::Open), (seen, DISCARDED));
        }
        for seen in [FREE, ENDING] {
            assert_eq!(case(1, seen, What::T11Expired), (seen, DISCARDED));
            assert_eq!(case(1, seen, What::Request { by: 1 }), (seen, rejected(1)));
        }
    }

    #[test]
    fn seats_that_do_not_receive() {
        assert_eq!(case(2, watched(6), What::End { by: 2 }), (watched(2), ENDED));
        for seen in [FREE, IDLE, watched(2), ENDING] {
            assert_eq!(case(1, seen, What::End { by: 2 }), (seen, ENDED));
            assert_eq!(case(1, seen, What::End { by: 0 }), (seen, ENDED));
            assert_eq!(case(1, seen, What::Request { by: 0 }), (seen, rejected(1)));
        }
    }
}
