//! Calls made of values, with out slices that are lent with just the counts that their answers need.

use super::call::{lent_numbers, Call, Function, Part};
use super::rows::{self, ANSWER, ATTEMPT, EVENT, FIELD, MESSAGE, RECORD, SHEET, USERS};
use crate::reception::octets;
use crate::reception::record::{Record, Records};
use crate::reception::steps::Attempt;
use crate::reception::table::{Answer, Event};
use crate::sheet::Sheet;
use crate::wire::lent;

fn numbers(count: usize) -> Part {
    Part::Numbers(lent_numbers(count))
}

fn octets_of(count: usize) -> Part {
    Part::Octets(lent(count))
}

fn row_of(sheet: &Sheet) -> Part {
    Part::Numbers(rows::sheet_row(sheet))
}

fn users_of(sheet: &Sheet) -> Part {
    Part::Users(sheet.users.concat())
}

pub fn sheet(text: &[u8]) -> Call {
    let parts = vec![Part::Octets(text.to_vec()), numbers(SHEET), Part::Users(lent(USERS)), numbers(1)];
    Call::new(Function::Sheet, parts)
}

pub fn read(sheet: &Sheet, packet: &[u8]) -> Call {
    Call::new(Function::Read, vec![row_of(sheet), Part::Octets(packet.to_vec()), numbers(MESSAGE)])
}

/// A row of a message to write into a buffer of so many octets.
pub fn write(sheet: &Sheet, message: &[u32], names: &[u8], room: usize) -> Call {
    let (message, names) = (Part::Numbers(message.to_vec()), Part::Octets(names.to_vec()));
    Call::new(Function::Write, vec![row_of(sheet), message, names, octets_of(room), numbers(1)])
}

pub fn field(packet: &[u8], place: u32) -> Call {
    Call::new(Function::Field, vec![Part::Octets(packet.to_vec()), Part::Number(place), numbers(FIELD)])
}

pub fn event(sheet: &Sheet, packet: &[u8]) -> Call {
    let parts = vec![row_of(sheet), users_of(sheet), Part::Octets(packet.to_vec()), numbers(EVENT)];
    Call::new(Function::Event, parts)
}

fn of_records(sheet: &Sheet, records: &Records, stream: u8) -> Vec<Part> {
    vec![row_of(sheet), Part::Octets(octets::records(records).to_vec()), Part::Number(stream.into())]
}

pub fn seen(sheet: &Sheet, records: &Records, stream: u8) -> Call {
    Call::new(Function::Seen, [of_records(sheet, records, stream), vec![octets_of(RECORD)]].concat())
}

pub fn count(sheet: &Sheet, records: &Records, stream: u8) -> Call {
    Call::new(Function::Count, [of_records(sheet, records, stream), vec![numbers(1)]].concat())
}

pub fn work_out(sheet: &Sheet, seen: Record, event: Event) -> Call {
    let (record, event) = (Part::Octets(octets::record(seen).to_vec()), Part::Numbers(rows::event_row(event)));
    Call::new(Function::WorkOut, vec![row_of(sheet), record, event, numbers(ATTEMPT)])
}

pub fn store(sheet: &Sheet, attempt: &Attempt, records: &Records) -> Call {
    let (attempt, records) =
        (Part::Numbers(rows::attempt_row(attempt)), Part::Octets(octets::records(records).to_vec()));
    Call::new(Function::Store, vec![row_of(sheet), attempt, records, numbers(ANSWER)])
}

/// An answer to send into a buffer of so many octets.
pub fn packet(sheet: &Sheet, stream: u8, answer: &Answer, room: usize) -> Call {
    let (stream, answer) = (Part::Number(stream.into()), Part::Numbers(rows::answer_row(answer)));
    let parts = vec![row_of(sheet), users_of(sheet), stream, answer, octets_of(room), numbers(1)];
    Call::new(Function::Packet, parts)
}
