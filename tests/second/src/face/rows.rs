//! The rows of the face, read from include/coyametzi.h alone: what each row stands for, and none where nothing does.

use crate::controller::answers::{self, Numbered};
use crate::packet::{kinds, Message, INDICATED};
use crate::reception::octets;
use crate::reception::record::{watched, Record, Records, ENDING, FREE, IDLE};
use crate::reception::steps::Attempt;
use crate::reception::table::{Answer, Event, What};
use crate::sheet::{Sheet, KEYS, SEATS, WIDTH};
use std::ops::Range;

/// Where a row has no such number.
pub const NONE: u32 = u32::MAX;

/// The counts of the rows.
pub const SHEET: usize = 19;
pub const USERS: usize = 480;
pub const MESSAGE: usize = 12;
pub const FIELD: usize = 4;
pub const EVENT: usize = 4;
pub const RECORD: usize = 2;
pub const RECORDS: usize = 16;
pub const ATTEMPT: usize = 11;
pub const ANSWER: usize = 6;

/// The sheet of a row, without User IDs.
pub fn sheet_in(row: &[u32]) -> Option<Sheet> {
    let (numbers, ssrcs) = row.split_first_chunk::<{ KEYS.len() }>()?;
    Some(Sheet { numbers: *numbers, ssrcs: ssrcs.try_into().ok()?, ..Sheet::ZERO })
}

pub fn sheet_row(sheet: &Sheet) -> Vec<u32> {
    [&sheet.numbers[..], &sheet.ssrcs].concat()
}

/// The sheet of a row with these User IDs.
pub fn whole_sheet_in(row: &[u32], users: &[u8]) -> Option<Sheet> {
    let (rows, _) = users.as_chunks::<WIDTH>();
    Some(Sheet { users: rows.try_into().ok()?, ..sheet_in(row)? })
}

/// A number that is there exactly if the message has one.
fn exactly<T: TryFrom<u32>>(number: u32, has: bool) -> Option<Option<T>> {
    match (has, number) {
        (true, number) => T::try_from(number).ok().map(Some),
        (false, NONE) => Some(None),
        (false, _) => None,
    }
}

/// A number that may be there, if the message may have one.
fn perhaps(number: u32, may: bool) -> Option<Option<u16>> {
    exactly(number, may && number != NONE)
}

/// A name's place, which is there exactly if the message has the name.
fn name(place: u32, length: u32, has: bool) -> Option<Option<Range<usize>>> {
    let (place, length) = (place as usize, length as usize);
    match (has, place, length) {
        (true, ..) => Some(Some(place..place + length)),
        (false, 0, 0) => Some(None),
        (false, ..) => None,
    }
}

/// 0 or 1.
fn truth(number: u32) -> Option<bool> {
    match number {
        0 => Some(false),
        1 => Some(true),
        _ => None,
    }
}

/// The message of a row: it has the values of its kind and no others, none too wide.
pub fn message_in(row: &[u32]) -> Option<Message> {
    let row: &[u32; MESSAGE] = row.try_into().ok()?;
    let [kind, ssrc, ack, user, user_length, named, named_length, result, cause, indicator, source, about] = *row;
    if !kinds().contains(&kind) {
        return None;
    }
    let result = exactly(result, kind == 2)?;
    if result > Some(1) {
        return None;
    }
    Some(Message {
        kind,
        ssrc,
        ack: truth(ack)?,
        user: name(user, user_length, kind == 1)?,
        named: name(named, named_length, [1, 3, 4].contains(&kind))?,
        result,
        cause: exactly(cause, result == Some(0) || kind == 5)?,
        indicator: perhaps(indicator, INDICATED.contains(&kind))?,
        source: exactly(source, kind == 7)?,
        about: exactly(about, kind == 7)?,
    })
}

/// A record of a phase, 0 to 3, and receivers.
pub fn record_of(phase: u32, receivers: u32) -> Option<Record> {
    let phase = [FREE, IDLE, watched(0), ENDING].get(usize::try_from(phase).ok()?)?.phase;
    Some(Record { phase, receivers: u8::try_from(receivers).ok()? })
}

pub fn record_in(octets: &[u8]) -> Option<Record> {
    let [phase, receivers] = *<&[u8; RECORD]>::try_from(octets).ok()?;
    record_of(phase.into(), receivers.into())
}

pub fn records_in(octets: &[u8]) -> Option<Records> {
    let octets: &[u8; RECORDS] = octets.try_into().ok()?;
    let records: Option<Vec<Record>> = octets.chunks(RECORD).map(record_in).collect();
    <[Record; SEATS]>::try_from(records?).ok()
}

/// The event of a row: `by` and Ack are 0 where it has none.
pub fn event_in(row: &[u32]) -> Option<Event> {
    let [what, stream, by, ack] = *<&[u32; EVENT]>::try_from(row).ok()?;
    let (stream, by, ack) = (u8::try_from(stream).ok()?, u8::try_from(by).ok()?, truth(ack)?);
    let what = match what {
        1 => What::Request { by },
        2 => What::End { by },
        3 => What::Open,
        4 => What::T11Expired,
        5 => What::EndResponse { ack },
        6 => What::Release,
        _ => return None,
    };
    let event = Event { stream, what };
    (event_row(event) == row).then_some(event)
}

pub fn event_row(event: Event) -> Vec<u32> {
    octets::event(event).map(u32::from).to_vec()
}

/// The answer of a row: one that the event table gives, a reject and an end request with any cause of two octets.
pub fn answer_in(row: &[u32]) -> Option<Numbered> {
    let cause = row.get(3).and_then(|cause| u16::try_from(*cause).ok()).unwrap_or(0);
    answers::all(cause).into_iter().find(|numbered| answer_row(&numbered.answer) == row)
}

pub fn answer_row(answer: &Answer) -> Vec<u32> {
    let [done, kind, _, _, _, stops, starts] = octets::answer(*answer).map(u32::from);
    vec![done, kind, answer.result.map_or(NONE, u32::from), answer.cause.map_or(NONE, u32::from), stops, starts]
}

/// The attempt of a row.
pub fn attempt_in(row: &[u32]) -> Option<Attempt> {
    let ([stream, phase, receivers, wanted_phase, wanted_receivers], answer) = row.split_first_chunk::<5>()?;
    Some(Attempt {
        stream: u8::try_from(*stream).ok()?,
        seen: record_of(*phase, *receivers)?,
        wanted: record_of(*wanted_phase, *wanted_receivers)?,
        answer: answer_in(answer)?.answer,
    })
}

pub fn attempt_row(attempt: &Attempt) -> Vec<u32> {
    let front = octets::attempt(attempt).into_iter().map(u32::from);
    front.chain(answer_row(&attempt.answer)).collect()
}
