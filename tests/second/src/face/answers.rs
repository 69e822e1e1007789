//! What each call answers, from document 01 and include/coyametzi.h: sheet and users first, then what the call judges, and
//! out slices that are too short last of all.

use super::call::{Answer, Call, Function, Part};
use super::rows::{self, NONE};
use crate::controller::events::event_of;
use crate::controller::sending;
use crate::packet::{self, Numbers};
use crate::reception::octets;
use crate::reception::record::call_of;
use crate::reception::steps;
use crate::sheet::{self, Sheet};
use crate::wire::message_numbers;
use crate::writer;

/// The refusals of what no value stands for.
const BAD_MESSAGE: u32 = 5;
const NOT_LEGAL: u32 = 9;
const NO_ROOM: u32 = 11;
const BAD_SHEET: u32 = 12;

/// A refusal stands together with 256 times its line.
const PER_LINE: u32 = 256;

/// What a call gives, or its refusal.
type Given<T> = Result<T, u32>;

/// A sheet whose numbers and SSRCs some sheet reads to; else 12, line 0.
fn sheet_alone(row: &[u32]) -> Given<Sheet> {
    rows::sheet_in(row).filter(Sheet::is_valid_alone).ok_or(BAD_SHEET)
}

/// A sheet that some sheet reads to with its User IDs; else 12, line 0.
fn sheet_with(row: &[u32], users: &[u8]) -> Given<Sheet> {
    rows::whole_sheet_in(row, users).filter(Sheet::is_valid).ok_or(BAD_SHEET)
}

/// A stream that may be one of eight.
fn stream_of(number: u32) -> Given<u8> {
    u8::try_from(number).map_err(|_| NOT_LEGAL)
}

/// What was lent with this in its front; else 11.
fn over<T: Clone>(lent: &[T], front: &[T]) -> Given<Vec<T>> {
    let behind = lent.get(front.len()..).ok_or(NO_ROOM)?;
    Ok([front, behind].concat())
}

fn over_numbers(lent: &[u32], front: &[u32]) -> Given<Part> {
    over(lent, front).map(Part::Numbers)
}

fn over_octets(lent: &[u8], front: &[u8]) -> Given<Part> {
    over(lent, front).map(Part::Octets)
}

fn read_sheet(text: &[u8], sheet: &[u32], used: &[u32]) -> Given<Vec<Part>> {
    let (value, taken) = sheet::read(text).map_err(|line| BAD_SHEET + PER_LINE * line)?;
    let users = Part::Users(value.users.concat());
    Ok(vec![over_numbers(sheet, &rows::sheet_row(&value))?, users, over_numbers(used, &[taken as u32])?])
}

fn read(sheet: &[u32], packet: &[u8], message: &[u32]) -> Given<Vec<Part>> {
    let read = Numbers::on(&sheet_alone(sheet)?).read(packet)?;
    Ok(vec![over_numbers(message, &message_numbers(&read))?])
}

fn write(sheet: &[u32], message: &[u32], names: &[u8], out: &[u8], written: &[u32]) -> Given<Vec<Part>> {
    let sheet = sheet_alone(sheet)?;
    let message = rows::message_in(message).ok_or(BAD_MESSAGE)?;
    let packet = writer::packet_of(&sheet, &message, names).ok_or(BAD_MESSAGE)?;
    Ok(vec![over_octets(out, &packet)?, over_numbers(written, &[packet.len() as u32])?])
}

fn field(packet: &[u8], place: u32, field: &[u32]) -> Given<Vec<Part>> {
    let found = match packet::field_at(packet, place as usize)? {
        Some(found) => [u32::from(found.id), place + 2, found.value.len() as u32, found.next as u32],
        None => [NONE, place, 0, place],
    };
    Ok(vec![over_numbers(field, &found)?])
}

fn event(sheet: &[u32], users: &[u8], packet: &[u8], event: &[u32]) -> Given<Vec<Part>> {
    let sheet = sheet_with(sheet, users)?;
    Ok(vec![over_numbers(event, &rows::event_row(event_of(Ok(&sheet), packet)?))?])
}

fn seen(sheet: &[u32], records: &[u8], stream: u32, record: &[u8]) -> Given<Vec<Part>> {
    let call = call_of(&sheet_alone(sheet)?);
    let records = rows::records_in(records).ok_or(NOT_LEGAL)?;
    let seen = steps::read(call, &records, stream_of(stream)?)?;
    Ok(vec![over_octets(record, &octets::record(seen))?])
}

fn count(sheet: &[u32], records: &[u8], stream: u32, count: &[u32]) -> Given<Vec<Part>> {
    let call = call_of(&sheet_alone(sheet)?);
    let records = rows::records_in(records).ok_or(NOT_LEGAL)?;
    Ok(vec![over_numbers(count, &[steps::count(call, &records, stream_of(stream)?)?])?])
}

fn work_out(sheet: &[u32], record: &[u8], event: &[u32], attempt: &[u32]) -> Given<Vec<Part>> {
    let call = call_of(&sheet_alone(sheet)?);
    let seen = rows::record_in(record).ok_or(NOT_LEGAL)?;
    let event = rows::event_in(event).ok_or(NOT_LEGAL)?;
    Ok(vec![over_numbers(attempt, &rows::attempt_row(&steps::work_out(call, seen, event)?))?])
}

fn store(sheet: &[u32], attempt: &[u32], records: &[u8], answer: &[u32]) -> Given<Vec<Part>> {
    let call = call_of(&sheet_alone(sheet)?);
    let attempt = rows::attempt_in(attempt).ok_or(NOT_LEGAL)?;
    let mut after = rows::records_in(records).ok_or(NOT_LEGAL)?;
    let stored = steps::store(call, &mut after, attempt)?;
    Ok(vec![Part::Octets(octets::records(&after).to_vec()), over_numbers(answer, &rows::answer_row(&stored))?])
}

fn send(sheet: &[u32], users: &[u8], stream: u32, answer: &[u32], out: &[u8], written: &[u32]) -> Given<Vec<Part>> {
    let sheet = sheet_with(sheet, users)?;
    let (stream, answer) = (stream_of(stream)?, rows::answer_in(answer).ok_or(NOT_LEGAL)?);
    let mut after = out.to_vec();
    let sent = sending::packet_of(&sheet, stream, &answer.answer, &mut after)?;
    Ok(vec![Part::Octets(after), over_numbers(written, &[sent.unwrap_or(0) as u32])?])
}

fn given(call: &Call) -> Given<Vec<Part>> {
    use Part::{Number, Numbers, Octets, Users};
    match (call.function, &call.parts[..]) {
        (Function::Sheet, [Octets(text), Numbers(sheet), Users(_), Numbers(used)]) => read_sheet(text, sheet, used),
        (Function::Read, [Numbers(sheet), Octets(packet), Numbers(message)]) => read(sheet, packet, message),
        (Function::Write, [Numbers(sheet), Numbers(message), Octets(names), Octets(out), Numbers(written)]) => {
            write(sheet, message, names, out, written)
        }
        (Function::Field, [Octets(packet), Number(place), Numbers(row)]) => field(packet, *place, row),
        (Function::Event, [Numbers(sheet), Users(users), Octets(packet), Numbers(row)]) => {
            event(sheet, users, packet, row)
        }
        (Function::Seen, [Numbers(sheet), Octets(records), Number(stream), Octets(record)]) => {
            seen(sheet, records, *stream, record)
        }
        (Function::WorkOut, [Numbers(sheet), Octets(record), Numbers(event), Numbers(attempt)]) => {
            work_out(sheet, record, event, attempt)
        }
        (Function::Store, [Numbers(sheet), Numbers(attempt), Octets(records), Numbers(answer)]) => {
            store(sheet, attempt, records, answer)
        }
        (Function::Count, [Numbers(sheet), Octets(records), Number(stream), Numbers(row)]) => {
            count(sheet, records, *stream, row)
        }
        (
            Function::Packet,
            [Numbers(sheet), Users(users), Number(stream), Numbers(answer), Octets(out), Numbers(written)],
        ) => send(sheet, users, *stream, answer, out, written),
        _ => unreachable!("parameters of another function"),
    }
}

/// What a call returns, and what is then in the slices that it may change; where it is refused, what was there before.
pub fn answer(call: &Call) -> Answer {
    match given(call) {
        Ok(after) => Answer { returned: 0, after },
        Err(returned) => Answer { returned, after: call.lent() },
    }
}
