//! Calls that are taken, of every function and every shape.

use super::call::{Call, Function};
use super::made;
use crate::controller::answers;
use crate::controller::scene::Scene;
use crate::controller::sending::sent;
use crate::drafts;
use crate::good;
use crate::packet::{kinds, HEAD};
use crate::random::Random;
use crate::reception::record::{watched, Record, Records, ENDING, FREE, IDLE};
use crate::reception::steps::Attempt;
use crate::reception::table::table;
use crate::sheet::{Sheet, SEATS};
use crate::wire::message_numbers;
use crate::{packet, writer};

/// What may follow a sheet.
const BEHIND: &[u8] = b"seat=4,sip:d\n80";

/// A sheet with three seats or more and a limit of two or more, so that the event table gives every answer.
pub fn sheet(random: &mut Random) -> Sheet {
    let seats = random.within(3, SEATS as u32) as usize;
    let mut sheet = good::sheet(random, seats);
    sheet.set("limit", random.within(2, SEATS as u32));
    sheet
}

/// Stream 0's record beside others: of the streams on the sheet they are legal, and of the others they are not.
fn records(first: Record) -> Records {
    [first, watched(4), ENDING, watched(255), watched(0), Record { receivers: 9, ..FREE }, IDLE, FREE]
}

/// A good packet of every shape of every kind.
fn packets(random: &mut Random, sheet: &Sheet) -> Vec<Vec<u8>> {
    let drafts = kinds().flat_map(|kind| drafts::of_kind(random, sheet, kind));
    drafts.map(|draft| draft.octets()).collect()
}

fn write(sheet: &Sheet, packet: &[u8]) -> Call {
    let message = packet::read(sheet, packet).expect("a good packet");
    let room = writer::packet_of(sheet, &message, packet).expect("a good message").len();
    made::write(sheet, &message_numbers(&message), packet, room)
}

/// Every field of a packet, and its end.
fn fields(packet: &[u8]) -> Vec<Call> {
    let places = std::iter::successors(Some(HEAD), |place| {
        let field = packet::field_at(packet, *place).expect("a good field")?;
        Some(field.next)
    });
    places.map(|place| made::field(packet, place as u32)).collect()
}

fn events(random: &mut Random, sheet: &Sheet) -> Vec<Call> {
    let scene = Scene::new(random, sheet);
    [1, 3, 6].map(|kind| made::event(sheet, &scene.good(random, kind).octets())).to_vec()
}

/// Attempts with every answer on stream 0.
fn attempts() -> impl Iterator<Item = Attempt> {
    answers::given().map(|(seen, event)| {
        let (wanted, answer) = table(2, seen, event);
        Attempt { stream: 0, seen, wanted, answer }
    })
}

/// Calls of a function that are taken under a sheet, one of every shape.
pub fn all(random: &mut Random, sheet: &Sheet, function: Function) -> Vec<Call> {
    let seen = [FREE, IDLE, watched(2), watched(6), ENDING];
    match function {
        Function::Sheet => {
            vec![made::sheet(&sheet.lines().concat()), made::sheet(&[&sheet.lines().concat()[..], BEHIND].concat())]
        }
        Function::Read => packets(random, sheet).iter().map(|packet| made::read(sheet, packet)).collect(),
        Function::Write => packets(random, sheet).iter().map(|packet| write(sheet, packet)).collect(),
        Function::Field => packets(random, sheet).iter().flat_map(|packet| fields(packet)).collect(),
        Function::Event => events(random, sheet),
        Function::Seen => seen.map(|first| made::seen(sheet, &records(first), 0)).to_vec(),
        Function::Count => seen.map(|first| made::count(sheet, &records(first), 0)).to_vec(),
        Function::WorkOut => answers::given().map(|(seen, event)| made::work_out(sheet, seen, event)).collect(),
        Function::Store => attempts().map(|attempt| made::store(sheet, &attempt, &records(attempt.seen))).collect(),
        Function::Packet => {
            let stream = random.below(sheet.rows()) as u8;
            let room = |answer| sent(sheet, stream, answer).map_or(0, |packet| packet.len());
            let all = answers::all(random.word() as u16);
            all.iter().map(|numbered| made::packet(sheet, stream, &numbered.answer, room(&numbered.answer))).collect()
        }
    }
}
