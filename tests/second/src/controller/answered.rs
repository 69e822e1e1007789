//! Made answers to send: every answer into buffers of every length, on every stream, and under values that no sheet
//! reads to.

use super::answers::{self, Numbered};
use super::sending::{is_on_sheet, sent};
use super::sheets;
use super::wire::{Case, LONGEST_LENT};
use crate::drafts::NUMBERS;
use crate::good;
use crate::messages::PAST;
use crate::packet::HEAD;
use crate::random::Random;
use crate::sheet::{Sheet, SEATS};
use crate::values;

/// How many answers each value has that differs from a sheet in one place.
const PER_VALUE: usize = 3;

/// The length of an answer's packet; that of a header where it sends nothing or is on a stream off the sheet.
fn size(sheet: &Sheet, stream: u8, answer: &Numbered) -> usize {
    let on_sheet = Some(stream).filter(|stream| is_on_sheet(sheet, *stream));
    on_sheet.and_then(|stream| sent(sheet, stream, &answer.answer)).map_or(HEAD, |packet| packet.len())
}

/// An answer into buffers of every length, up to a little past its packet.
fn into_every_buffer(sheet: &Sheet, stream: u8, answer: Numbered) -> impl Iterator<Item = Case> + '_ {
    (0..=size(sheet, stream, &answer) + PAST).map(move |room| Case::Packet(sheet.clone(), stream, answer, room))
}

/// Every answer on the first stream and on the last, under a sheet of each count of seats.
fn every_answer(random: &mut Random) -> Vec<Case> {
    let mut cases = vec![];
    for seats in 1..=SEATS {
        let sheet = good::sheet(random, seats);
        for stream in [0, seats as u8 - 1] {
            let answers = answers::all(*random.pick(&NUMBERS));
            cases.extend(answers.into_iter().flat_map(|answer| into_every_buffer(&sheet, stream, answer)));
        }
    }
    cases
}

/// Every answer that names the transmitter, for User IDs of every length.
fn every_user(random: &mut Random) -> Vec<Case> {
    let mut cases = vec![];
    for sheet in sheets::of_every_length(random) {
        for stream in 0..sheet.rows() as u8 {
            let named = answers::all(0).into_iter().filter(Numbered::names);
            cases.extend(named.flat_map(|answer| into_every_buffer(&sheet, stream, answer)));
        }
    }
    cases
}

/// Every answer that carries a cause, with causes at and about the edges.
fn every_cause(random: &mut Random) -> Vec<Case> {
    let sheet = good::sheet(random, SEATS / 2);
    let mut cases = vec![];
    for cause in NUMBERS {
        let with_cause = answers::all(cause).into_iter().filter(|answer| answer.answer.cause.is_some());
        cases.extend(with_cause.flat_map(|answer| into_every_buffer(&sheet, 1, answer)));
    }
    cases
}

/// A length of a buffer by chance: too short, right, or longer.
fn any_room(random: &mut Random, size: usize) -> usize {
    match random.below(8) {
        0 => 0,
        1 => size - 1,
        2 | 3 => random.below(size),
        4 => random.below(LONGEST_LENT + 1),
        _ => size + random.below(PAST + 1),
    }
}

/// An answer into a buffer of a length by chance.
fn into_any_buffer(random: &mut Random, sheet: &Sheet, stream: u8, answer: Numbered) -> Case {
    let room = any_room(random, size(sheet, stream, &answer));
    Case::Packet(sheet.clone(), stream, answer, room)
}

/// An answer on every stream that there could be, and every answer on the first that are off the sheet and on the last;
/// under a sheet of each count of seats.
fn every_stream(random: &mut Random) -> Vec<Case> {
    let mut cases = vec![];
    for seats in 1..=SEATS {
        let sheet = good::sheet(random, seats);
        for stream in 0..=u8::MAX {
            let answer = *random.pick(&answers::all(0));
            cases.push(into_any_buffer(random, &sheet, stream, answer));
        }
        for stream in [seats as u8, seats as u8 + 1, SEATS as u8, u8::MAX] {
            cases.extend(answers::all(1).map(|answer| into_any_buffer(random, &sheet, stream, answer)));
        }
    }
    cases
}

/// A stream on the sheet for the most part.
fn any_stream(random: &mut Random, sheet: &Sheet) -> u8 {
    match random.below(16) {
        0 => random.octet(),
        1 => random.below(SEATS + 1) as u8,
        _ => random.below(sheet.rows()) as u8,
    }
}

/// An answer by chance that is good under a sheet for the most part, asked under a value that may be another.
fn any(random: &mut Random, sheet: &Sheet, value: Sheet) -> Case {
    let cause = if random.once_in(2) { *random.pick(&NUMBERS) } else { random.word() as u16 };
    let (stream, answer) = (any_stream(random, sheet), *random.pick(&answers::all(cause)));
    let room = any_room(random, size(sheet, stream, &answer));
    Case::Packet(value, stream, answer, room)
}

/// Answers under values that no sheet reads to, and under such as differ from a sheet in one place.
fn under_other_values(random: &mut Random) -> Vec<Case> {
    let sheet = good::sheet(random, SEATS / 2);
    let mut cases = vec![];
    for value in values::with_one_change(&sheet) {
        cases.extend((0..PER_VALUE).map(|_| any(random, &sheet, value.clone())));
    }
    cases
}

/// All of these.
pub fn systematic(random: &mut Random) -> Vec<Case> {
    let made = [under_other_values, every_answer, every_user, every_cause, every_stream];
    made.into_iter().flat_map(|made| made(random)).collect()
}

/// An answer under a sheet by chance; at times its value is spoilt.
pub fn one(random: &mut Random) -> Case {
    let sheet = sheets::any(random);
    let value = if random.once_in(10) { values::spoilt(random, &sheet) } else { sheet.clone() };
    any(random, &sheet, value)
}
