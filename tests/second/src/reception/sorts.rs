//! How attempts and steps turned out, in words.

use super::octets;
use super::record::{Call, Phase, Record};
use super::routines::Said;
use super::table::{Answer, Event};
use crate::sheet::SEATS;
use std::fmt;

/// Every answer that document 01 has, as octets: grants of a first receiver, of one more and of a repeat; rejects with
/// cause 0 and 1; an end of the last receiver and another; an end request; an end response without and with an Ack; an
/// open; a release from Idle, Watched and Ending; an event discarded.
pub const ANSWERS: [[u8; 7]; 15] = [
    [1, 2, 1, 255, 255, 10, 4],
    [1, 2, 1, 255, 255, 2, 4],
    [1, 2, 1, 255, 255, 0, 0],
    [2, 2, 0, 0, 0, 0, 0],
    [2, 2, 0, 0, 1, 0, 0],
    [3, 4, 255, 255, 255, 0, 8],
    [3, 4, 255, 255, 255, 0, 0],
    [4, 5, 255, 0, 8, 0, 1],
    [5, 0, 255, 255, 255, 1, 0],
    [5, 7, 255, 255, 255, 1, 0],
    [6, 0, 255, 255, 255, 0, 8],
    [7, 0, 255, 255, 255, 8, 0],
    [7, 0, 255, 255, 255, 0, 0],
    [7, 0, 255, 255, 255, 1, 0],
    [8, 0, 255, 255, 255, 0, 0],
];

const DONE: [&str; 8] = ["grant", "reject", "ended", "end request", "freed", "opened", "released", "discarded"];

/// Why an attempt is refused with 9 for a seat.
pub const SEAT_FAULTS: [&str; 2] = ["the stream is off the sheet", "the sender is off the sheet"];

/// Why a record is not legal.
pub const RECORD_FAULTS: [&str; 7] = [
    "Free with a bit",
    "Idle with a bit",
    "Ending with a bit",
    "Watched with no bit",
    "Watched with its own bit",
    "Watched with a bit of a seat off the sheet",
    "Watched with more bits than the limit",
];

/// How it turned out.
#[derive(Clone, Copy, PartialEq, Eq, PartialOrd, Ord)]
pub enum How {
    Answered([u8; 7]),
    Done,
    Refused(u32),
    OnlyFor(&'static str),
    OnlyForRecord(&'static str, &'static str),
}

impl fmt::Display for How {
    fn fmt(&self, f: &mut fmt::Formatter) -> fmt::Result {
        match self {
            How::Answered(answer) => f.write_str(&words(*answer)),
            How::Done => f.write_str("done"),
            How::Refused(refusal) => write!(f, "refused, {refusal:2}"),
            How::OnlyFor(fault) => write!(f, "refused only for: {fault}"),
            How::OnlyForRecord(which, fault) => write!(f, "refused only for: {which} is {fault}"),
        }
    }
}

fn timers(octet: u8) -> String {
    let names = ["T3", "T5", "T6", "T11"];
    (0..names.len()).filter(|bit| octet >> bit & 1 == 1).map(|bit| format!(" {}", names[bit])).collect()
}

/// An answer's octets in words.
fn words([done, kind, result, high, low, stops, starts]: [u8; 7]) -> String {
    let mut words = DONE[usize::from(done) - 1].to_string();
    let cause = u16::from_be_bytes([high, low]);
    let parts = [
        (kind != 0, format!(", kind {kind}")),
        (result != u8::MAX, format!(", Result {result}")),
        (cause != u16::MAX, format!(", cause {cause}")),
        (stops != 0, format!(", stop{}", timers(stops))),
        (starts != 0, format!(", start{}", timers(starts))),
    ];
    words.extend(parts.into_iter().filter(|(is_there, _)| *is_there).map(|(_, part)| part));
    words
}

/// All that is wrong with a record of a stream.
pub fn record_faults(call: Call, stream: u8, record: Record) -> Vec<&'static str> {
    let (empty, is_watched) = (record.receivers == 0, record.phase == Phase::Watched);
    let is = [
        record.phase == Phase::Free && !empty,
        record.phase == Phase::Idle && !empty,
        record.phase == Phase::Ending && !empty,
        is_watched && empty,
        is_watched && usize::from(stream) < SEATS && record.has(stream),
        is_watched && (call.seats..SEATS as u8).any(|r| record.has(r)),
        is_watched && record.count() > call.limit,
    ];
    RECORD_FAULTS.into_iter().zip(is).filter(|(_, is)| *is).map(|(fault, _)| fault).collect()
}

/// All that is wrong with an attempt.
pub fn faults(call: Call, seen: Record, event: Event) -> Vec<&'static str> {
    let is = [!call.has_seat(event.stream), event.what.by().is_some_and(|by| !call.has_seat(by))];
    let of_seats = SEAT_FAULTS.into_iter().zip(is).filter(|(_, is)| *is).map(|(fault, _)| fault);
    of_seats.chain(record_faults(call, event.stream, seen)).collect()
}

pub fn how_answered(said: Result<Answer, u32>) -> How {
    match said {
        Ok(answer) => How::Answered(octets::answer(answer)),
        Err(refusal) => How::Refused(refusal),
    }
}

pub fn how_said(said: Result<Said, u32>) -> How {
    match said {
        Ok(Said::Store { answer, .. }) => how_answered(Ok(answer)),
        Ok(_) => How::Done,
        Err(refusal) => How::Refused(refusal),
    }
}

#[cfg(test)]
mod tests {
    use super::*;
    use crate::reception::record::{watched, ENDING, FREE, IDLE};
    use crate::reception::table::What;

    #[test]
    fn answers_in_words() {
        assert_eq!(words(ANSWERS[0]), "grant, kind 2, Result 1, stop T5 T11, start T6");
        assert_eq!(words(ANSWERS[7]), "end request, kind 5, cause 8, start T3");
        assert_eq!(words(ANSWERS[14]), "discarded");
    }

    #[test]
    fn faults_of_a_record() {
        let faults = |record| record_faults(Call { seats: 3, limit: 1 }, 0, record);
        assert_eq!(faults(watched(2)), Vec::<&str>::new());
        assert_eq!([FREE, IDLE, ENDING].map(faults).concat(), Vec::<&str>::new());
        let with_a_bit = [FREE, IDLE, ENDING].map(|record| faults(Record { receivers: 2, ..record }));
        assert_eq!(with_a_bit.concat(), RECORD_FAULTS[..3]);
        assert_eq!([0, 1, 8, 6].map(|receivers| faults(watched(receivers))).concat(), RECORD_FAULTS[3..]);
        assert_eq!(faults(watched(9)), RECORD_FAULTS[4..]);
    }

    #[test]
    fn faults_of_an_attempt() {
        let faults = |seen, stream, what| faults(Call { seats: 3, limit: 1 }, seen, Event { stream, what });
        assert_eq!(faults(watched(2), 0, What::End { by: 2 }), Vec::<&str>::new());
        assert_eq!(
            faults(watched(9), 0, What::End { by: 3 }),
            [
                SEAT_FAULTS[1],
                "Watched with its own bit",
                "Watched with a bit of a seat off the sheet",
                "Watched with more bits than the limit"
            ]
        );
        assert_eq!(faults(Record { receivers: 2, ..IDLE }, 3, What::Open), [SEAT_FAULTS[0], "Idle with a bit"]);
    }
}
