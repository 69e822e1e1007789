//! The answers of reception by their numbers, each as the event table of document 01 gives it.

use crate::reception::record::{watched, Record, ENDING, FREE, IDLE};
use crate::reception::table::{table, Answer, Event, What};

/// The answers in the order of their numbers, from 1: a name, and what gives it on stream 0 where limit is 2.
const GIVEN: [(&str, Record, What); 14] = [
    ("GrantedFirst", IDLE, What::Request { by: 1 }),
    ("Granted", watched(4), What::Request { by: 1 }),
    ("GrantedAgain", watched(2), What::Request { by: 1 }),
    ("Rejected", IDLE, What::Request { by: 0 }),
    ("Ended", watched(6), What::End { by: 1 }),
    ("EndedLast", watched(2), What::End { by: 1 }),
    ("Opened", FREE, What::Open),
    ("EndRequested", IDLE, What::T11Expired),
    ("Freed", ENDING, What::EndResponse { ack: false }),
    ("FreedWithAck", ENDING, What::EndResponse { ack: true }),
    ("ReleasedIdle", IDLE, What::Release),
    ("ReleasedWatched", watched(2), What::Release),
    ("ReleasedEnding", ENDING, What::Release),
    ("Discarded", FREE, What::Release),
];

/// An answer with its number and its name.
#[derive(Clone, Copy, PartialEq, Eq, Debug)]
pub struct Numbered {
    pub number: u8,
    pub name: &'static str,
    pub answer: Answer,
}

impl Numbered {
    /// Whether a message is sent.
    pub fn sends(&self) -> bool {
        self.answer.kind.is_some()
    }

    /// Whether the message names the transmitter.
    pub fn names(&self) -> bool {
        self.answer.kind == Some(4)
    }
}

/// What gives each answer on stream 0 where limit is 2: a record seen and an event.
pub fn given() -> impl Iterator<Item = (Record, Event)> {
    GIVEN.into_iter().map(|(_, seen, what)| (seen, Event { stream: 0, what }))
}

/// Every answer, with this cause where it carries one.
pub fn all(cause: u16) -> [Numbered; GIVEN.len()] {
    std::array::from_fn(|at| {
        let (name, seen, what) = GIVEN[at];
        let (_, answer) = table(2, seen, Event { stream: 0, what });
        let cause = answer.cause.map(|_| cause);
        Numbered { number: at as u8 + 1, name, answer: Answer { cause, ..answer } }
    })
}

#[cfg(test)]
mod tests {
    use super::*;

    #[test]
    fn fourteen_answers_and_what_they_send() {
        let (grant, reject, ended) = ((Some(2), Some(1), None), (Some(2), Some(0), Some(258)), (Some(4), None, None));
        let (end_request, ack, nothing) = ((Some(5), None, Some(258)), (Some(7), None, None), (None, None, None));
        let sent = [
            grant, grant, grant, reject, ended, ended, nothing, end_request, nothing, ack, nothing, nothing, nothing,
            nothing,
        ];
        assert_eq!(all(258).map(|Numbered { answer, .. }| (answer.kind, answer.result, answer.cause)), sent);
        assert_eq!(all(0).map(|numbered| numbered.number), [1, 2, 3, 4, 5, 6, 7, 8, 9, 10, 11, 12, 13, 14]);
    }

    #[test]
    fn no_two_answers_are_the_same() {
        for (at, Numbered { answer, name, .. }) in all(1).iter().enumerate() {
            assert!(all(1)[..at].iter().all(|other| other.answer != *answer && other.name != *name), "{name}");
        }
    }
}
