//! Cases about sheets and packets, and their answers, as octets (crates/answers/src/question.rt).

use crate::packet::{self, Message, Reading, Step};
use crate::sheet::{self, Sheet};
use crate::writer::{self, Writing};
use std::ops::Range;

/// As many packets, and as many places, as the answer to one case has room for.
const PACKETS: usize = 21;
const PLACES: usize = 12;

/// Stands for a number that a message has not.
const NONE: u32 = u32::MAX;

/// How many octets of an answer say what was written.
pub const WRITTEN: usize = 16;

/// What a field step says at a place of some octets, and what a field reader says that is made there.
pub type Steps<'a> = (Step<'a>, Step<'a>);

/// What is asked of the proved functions. A message to write comes with the octets that its names lie in and with the
/// length of the buffer.
#[derive(Clone)]
pub enum Case {
    Read(Vec<u8>),
    Valid(Sheet),
    BySsrc(Sheet, u32),
    ByUser(Sheet, Vec<u8>),
    UserId(Vec<u8>),
    Packets(Sheet, Vec<Vec<u8>>),
    Fields(Vec<u8>, Vec<u64>),
    Write(Sheet, Message, Vec<u8>, usize),
}

/// The answer to a case. To a message to write it is what was written, the buffer afterwards, and what the octets
/// written read to.
#[derive(PartialEq, Debug)]
pub enum Answer<'a> {
    Read { sheet: Box<Sheet>, used: u64, refusal: u32, line: u32 },
    Valid { alone: bool, whole: bool },
    Seat(Option<usize>),
    UserId(bool),
    Packets(Vec<Reading>),
    Fields(Vec<Steps<'a>>),
    Write(Writing, Vec<u8>, Option<Reading>),
}

/// The buffer of this length that is lent to the writer: each octet depends on its place.
pub fn lent(room: usize) -> Vec<u8> {
    (0..room).map(|at| ((at * 37 + 11) % 251) as u8).collect()
}

/// The cases that ask for all packets under a sheet.
pub fn packet_cases(sheet: &Sheet, packets: &[Vec<u8>]) -> Vec<Case> {
    packets.chunks(PACKETS).map(|some| Case::Packets(sheet.clone(), some.to_vec())).collect()
}

/// The cases that ask for all places in some octets.
pub fn field_cases(octets: &[u8], places: &[u64]) -> Vec<Case> {
    places.chunks(PLACES).map(|some| Case::Fields(octets.to_vec(), some.to_vec())).collect()
}

impl Case {
    /// The case as octets: what is asked, a length, and that many octets.
    pub fn octets(&self) -> Vec<u8> {
        let (asked, body) = match self {
            Case::Read(text) => (1, text.clone()),
            Case::Valid(sheet) => (2, sheet_octets(sheet)),
            Case::BySsrc(sheet, ssrc) => (3, [sheet_octets(sheet), ssrc.to_be_bytes().to_vec()].concat()),
            Case::ByUser(sheet, name) => (4, [sheet_octets(sheet), name.clone()].concat()),
            Case::UserId(name) => (5, name.clone()),
            Case::Packets(sheet, packets) => {
                (6, [numbers_octets(sheet), packets.iter().flat_map(|packet| counted(packet)).collect()].concat())
            }
            Case::Fields(octets, places) => {
                (7, [counted(octets), places.iter().flat_map(|place| place.to_be_bytes()).collect()].concat())
            }
            Case::Write(sheet, message, names, room) => {
                let numbers = octets_of(message_numbers(message).into_iter().chain([*room as u32]));
                (8, [numbers_octets(sheet), numbers, names.clone()].concat())
            }
        };
        [vec![asked], with_length(body)].concat()
    }

    /// The case by its parts: one for each packet or place.
    pub fn parts(&self) -> Vec<Case> {
        match self {
            Case::Packets(sheet, packets) => {
                packets.iter().map(|packet| Case::Packets(sheet.clone(), vec![packet.clone()])).collect()
            }
            Case::Fields(octets, places) => {
                places.iter().map(|place| Case::Fields(octets.clone(), vec![*place])).collect()
            }
            _ => vec![self.clone()],
        }
    }

    /// The answer that document 01 gives.
    pub fn answer(&self) -> Answer<'_> {
        match self {
            Case::Read(text) => match sheet::read(text) {
                Ok((sheet, used)) => Answer::Read { sheet: Box::new(sheet), used: used as u64, refusal: 0, line: 0 },
                Err(line) => Answer::Read { sheet: Box::new(Sheet::ZERO), used: 0, refusal: 12, line },
            },
            Case::Valid(sheet) => Answer::Valid { alone: sheet.is_valid_alone(), whole: sheet.is_valid() },
            Case::BySsrc(sheet, ssrc) => Answer::Seat(sheet.seat_by_ssrc(*ssrc)),
            Case::ByUser(sheet, name) => Answer::Seat(sheet.seat_by_user(name)),
            Case::UserId(name) => Answer::UserId(sheet::is_user_id(name)),
            Case::Packets(sheet, packets) => {
                Answer::Packets(packets.iter().map(|packet| packet::read(sheet, packet)).collect())
            }
            Case::Fields(octets, places) => {
                let steps = |place| (packet::field_at(octets, place), packet::field_in(octets, place));
                Answer::Fields(places.iter().map(|place| steps(*place as usize)).collect())
            }
            Case::Write(sheet, message, names, room) => {
                let mut out = lent(*room);
                let writing = writer::write(sheet, message, names, &mut out);
                let back = writing.ok().map(|octets| packet::read(sheet, &out[..octets]));
                Answer::Write(writing, out, back)
            }
        }
    }
}

impl Answer<'_> {
    /// The answer as octets, without the length that stands before it.
    pub fn body(&self) -> Vec<u8> {
        match self {
            Answer::Read { sheet, used, refusal, line } => {
                let mut octets = sheet_octets(sheet);
                octets.extend(used.to_be_bytes());
                octets.extend(refusal.to_be_bytes());
                octets.extend(line.to_be_bytes());
                octets
            }
            Answer::Valid { alone, whole } => vec![*alone as u8, *whole as u8],
            Answer::Seat(Some(s)) => vec![1, *s as u8],
            Answer::Seat(None) => vec![0, 0],
            Answer::UserId(is) => vec![*is as u8],
            Answer::Packets(readings) => octets_of(readings.iter().flat_map(reading_numbers)),
            Answer::Fields(steps) => {
                let numbers = steps.iter().flat_map(|(stands, reader)| [step_numbers(stands), step_numbers(reader)]);
                numbers.flatten().flat_map(u64::to_be_bytes).collect()
            }
            Answer::Write(writing, out, back) => {
                let mut octets = writing.map_or(0, |octets| octets as u64).to_be_bytes().to_vec();
                octets.extend(octets_of([writing.err().unwrap_or(0), 0]));
                octets.extend(out);
                octets.extend(octets_of(back.iter().flat_map(reading_numbers)));
                octets
            }
        }
    }
}

/// A packet's answer: its message; or 0, the refusal and its place.
fn reading_numbers(reading: &Reading) -> [u32; 12] {
    match reading {
        Ok(message) => message_numbers(message),
        Err(refusal) => [0, *refusal, 0, 0, 0, 0, 0, 0, 0, 0, 0, 0],
    }
}

/// A message: kind, SSRC, Ack asked, place and length of the User ID and of the named transmitter, Result, cause,
/// Indicator, Source, Message Type.
pub fn message_numbers(message: &Message) -> [u32; 12] {
    let place = |name: &Option<Range<usize>>| match name {
        Some(name) => [name.start as u32, name.len() as u32],
        None => [0, 0],
    };
    let ([user, user_length], [named, named_length]) = (place(&message.user), place(&message.named));
    let number = |number: Option<u16>| number.map_or(NONE, u32::from);
    [
        message.kind,
        message.ssrc,
        u32::from(message.ack),
        user,
        user_length,
        named,
        named_length,
        number(message.result),
        number(message.cause),
        number(message.indicator),
        number(message.source),
        message.about.map_or(NONE, u32::from),
    ]
}

/// A step's answer: 1, the field's place, ID and length, and the next place; 2 at the end; or 3 and the refusal.
fn step_numbers(step: &Step) -> [u64; 5] {
    match step {
        Ok(Some(field)) => [1, field.at as u64, u64::from(field.id), field.value.len() as u64, field.next as u64],
        Ok(None) => [2, 0, 0, 0, 0],
        Err(refusal) => [3, u64::from(*refusal), 0, 0, 0],
    }
}

/// Octets behind their count, of four octets.
pub fn with_length(body: Vec<u8>) -> Vec<u8> {
    [(body.len() as u32).to_be_bytes().to_vec(), body].concat()
}

/// Octets behind their count, of two octets.
pub fn counted(octets: &[u8]) -> Vec<u8> {
    let count = u16::try_from(octets.len()).expect("a count of two octets");
    [&count.to_be_bytes(), octets].concat()
}

/// Numbers of four octets.
pub fn octets_of(numbers: impl IntoIterator<Item = u32>) -> Vec<u8> {
    numbers.into_iter().flat_map(u32::to_be_bytes).collect()
}

pub fn numbers_octets(sheet: &Sheet) -> Vec<u8> {
    octets_of(sheet.numbers.into_iter().chain(sheet.ssrcs))
}

pub fn sheet_octets(sheet: &Sheet) -> Vec<u8> {
    [numbers_octets(sheet), sheet.users.concat()].concat()
}

/// A number of four octets, taken off the front.
pub fn take_number(octets: &mut &[u8]) -> Option<u32> {
    let (front, rest) = octets.split_first_chunk::<4>()?;
    *octets = rest;
    Some(u32::from_be_bytes(*front))
}
