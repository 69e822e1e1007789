//! The cases of the other words as calls of the face.

use super::call::Call;
use super::made;
use crate::controller;
use crate::controller::answers;
use crate::drafts::{Draft, Part};
use crate::packet::{Message, LONGEST, MESSAGES, USER_ID};
use crate::random::Random;
use crate::reception;
use crate::reception::record::{call_of, Records, FREE};
use crate::reception::routines::{Routines, Step};
use crate::reception::schedules::{Move, Schedule};
use crate::reception::steps::Attempt;
use crate::reception::table::DISCARDED;
use crate::sheet::{Sheet, SEATS};
use crate::wire::{self, message_numbers};

/// The longest packet of a kind that names one user.
const ROOM: usize = 76;

/// A packet of a kind that makes an event, from an SSRC, with these fields.
fn offered(sheet: &Sheet, kind: usize, ssrc: u32, fields: Vec<Part>) -> Vec<u8> {
    let (letters, key) = MESSAGES[kind - 1];
    Draft { ack: false, number: sheet.number(key) as u8 & 15, ssrc, letters: *letters, fields }.octets()
}

/// An end response from an SSRC, so that its seat is looked for.
fn by_ssrc(sheet: &Sheet, ssrc: u32) -> Vec<Call> {
    vec![made::event(sheet, &offered(sheet, 6, ssrc, vec![]))]
}

/// An end from the first seat that names a user, so that its seat is looked for; none where a packet is too short for it.
fn by_user(sheet: &Sheet, name: Vec<u8>) -> Vec<Call> {
    if name.len() >= LONGEST {
        return vec![];
    }
    vec![made::event(sheet, &offered(sheet, 3, sheet.ssrcs[0], vec![Part(USER_ID, name)]))]
}

/// An end response that names a user, to write.
fn named(sheet: &Sheet, name: &[u8]) -> Vec<Call> {
    let message = Message { kind: 4, named: Some(0..name.len()), ..Message::default() };
    vec![made::write(sheet, &message_numbers(&message), name, ROOM)]
}

/// What is asked about sheets and packets. A value is judged by a call that takes no User IDs and by one that does.
pub fn about_packets(case: wire::Case) -> Vec<Call> {
    match case {
        wire::Case::Read(text) => vec![made::sheet(&text)],
        wire::Case::Valid(sheet) => {
            vec![made::count(&sheet, &[FREE; SEATS], 0), made::packet(&sheet, 0, &DISCARDED, 0)]
        }
        wire::Case::BySsrc(sheet, ssrc) => by_ssrc(&sheet, ssrc),
        wire::Case::ByUser(sheet, name) => by_user(&sheet, name),
        wire::Case::UserId(name) => named(&crate::bench::sheet_s(), &name),
        wire::Case::Packets(sheet, packets) => packets.iter().map(|packet| made::read(&sheet, packet)).collect(),
        wire::Case::Fields(octets, places) => {
            places.iter().filter_map(|place| Some(made::field(&octets, u32::try_from(*place).ok()?))).collect()
        }
        wire::Case::Write(sheet, message, names, room) => {
            vec![made::write(&sheet, &message_numbers(&message), &names, room)]
        }
    }
}

/// A step over the records as they are.
fn step(sheet: &Sheet, routines: &Routines, step: Step) -> Call {
    match step {
        Step::Read { stream, .. } => made::seen(sheet, &routines.records, stream),
        Step::WorkOut { slot, event } => made::work_out(sheet, routines.record_in(slot), event),
        Step::Store { slot } => made::store(sheet, &routines.attempt_in(slot), &routines.records),
        Step::Count { stream, .. } => made::count(sheet, &routines.records, stream),
    }
}

/// Steps one after the other, each over the records that the steps before it left.
fn steps(sheet: &Sheet, records: Records, steps: impl IntoIterator<Item = Step>) -> Vec<Call> {
    let mut routines = Routines::new(call_of(sheet), records);
    let mut calls = vec![];
    for next in steps {
        calls.push(step(sheet, &routines, next));
        let _ = routines.step(next);
    }
    calls
}

/// The moves of a schedule: reads and workings-out, and stores.
fn moves(schedule: &Schedule) -> impl Iterator<Item = Step> + '_ {
    schedule.moves().into_iter().flat_map(|Move { place, is_store }| {
        let (slot, event) = (place / 2, schedule.events[place]);
        match is_store {
            true => vec![Step::Store { slot }],
            false => vec![Step::Read { slot, stream: event.stream }, Step::WorkOut { slot, event }],
        }
    })
}

/// What is asked about reception. A store of any attempt has any answer.
pub fn about_reception(random: &mut Random, case: reception::Case) -> Vec<Call> {
    match case {
        reception::Case::Attempts(sheet, attempts) => {
            attempts.iter().map(|(seen, event)| made::work_out(&sheet, *seen, *event)).collect()
        }
        reception::Case::Steps(sheet, records, all) => steps(&sheet, records, all),
        reception::Case::Schedules(sheet, records, schedules) => {
            schedules.iter().flat_map(|schedule| steps(&sheet, records, moves(schedule))).collect()
        }
        reception::Case::Stores(sheet, records, attempts) => {
            let mut any = |attempt: &Attempt| {
                let answer = random.pick(&answers::all(0)).answer;
                made::store(&sheet, &Attempt { answer, ..*attempt }, &records)
            };
            attempts.iter().map(&mut any).collect()
        }
    }
}

/// What is asked about the controller.
pub fn about_controller(case: controller::Case) -> Vec<Call> {
    match case {
        controller::Case::Events(sheet, packets) => packets.iter().map(|packet| made::event(&sheet, packet)).collect(),
        controller::Case::Packet(sheet, stream, numbered, room) => {
            vec![made::packet(&sheet, stream, &numbered.answer, room)]
        }
    }
}
