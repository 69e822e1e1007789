//! How packets offered and answers to send turned out, and what sheets they were under, in words.

use super::answers::Numbered;
use super::events::{sender, stream, Offered, NO_EVENTS};
use super::sending::{is_on_sheet, sent, Sending};
use crate::packet::{self, Message, Reading};
use crate::reception::table::{Event, What};
use crate::sheet::{Sheet, SEATS, WIDTH};
use crate::writer;

/// What sheets may have.
pub const SHEETS: [&str; 5] = [
    "fewer than eight seats",
    "a seat with SSRC 0",
    "a seat with the server's SSRC",
    "a User ID that begins another",
    "a User ID of 60 octets",
];

/// Why a packet is refused with 6.
pub const SENDERS: [&str; 6] = [
    "SSRC of nobody, no User ID",
    "SSRC of nobody, User ID of a seat",
    "SSRC and User ID of nobody",
    "SSRC of a seat, User ID of another",
    "SSRC of a seat, User ID of nobody",
    "SSRC 0 of nobody while a row is unused",
];

/// What the name of nobody may be in a packet that is refused with 7.
pub const NAMED: [&str; 3] = ["begins a seat's User ID", "begins with a seat's User ID", "a seat's but for one octet"];

/// The SSRCs that seats may have which send events.
pub const SSRCS: [&str; 2] = ["SSRC 0", "the server's SSRC"];

/// What packets may be that make an event.
pub const FORMS: [&str; 2] = ["events of other packets", "events of canonical packets"];

/// An answer's shortest packet.
const SHORTEST: usize = 16;

/// Those that hold.
fn those<T, const N: usize>(all: [T; N], hold: [bool; N]) -> impl Iterator<Item = T> {
    all.into_iter().zip(hold).filter(|(_, holds)| *holds).map(|(one, _)| one)
}

/// A sheet by the count of its seats.
pub fn of_seats(seats: usize) -> String {
    format!("sheets, {seats} seats")
}

/// What a good sheet has.
pub fn of_sheet(sheet: &Sheet) -> Vec<String> {
    let begins = |user: &[u8]| sheet.user_ids().any(|other| other != user && other.starts_with(user));
    let has = [
        sheet.rows() < SEATS,
        sheet.seat_by_ssrc(0).is_some(),
        sheet.seat_by_ssrc(sheet.number("server")).is_some(),
        sheet.user_ids().any(begins),
        sheet.user_ids().any(|user| user.len() == WIDTH),
    ];
    let sorts = those(SHEETS, has).map(|sort| format!("sheets with {sort}"));
    sorts.chain([of_seats(sheet.rows())]).collect()
}

/// An event: what, whether it is on the sender's own stream, and whether the packet asks for an Ack.
pub fn of_event(what: &str, is_own: bool, ack: bool) -> String {
    let whose = if is_own { "its own" } else { "another's" };
    format!("events, {what} on {whose} stream, {} asked", if ack { "Ack" } else { "no Ack" })
}

/// Whether a packet has no skipped field and no phrase, and its fields in the order written.
fn is_canonical(sheet: &Sheet, packet: &[u8]) -> bool {
    let written = packet::read(sheet, packet).ok().and_then(|message| writer::packet_of(sheet, &message, packet));
    written.as_deref() == Some(packet)
}

fn of_events(sheet: &Sheet, packet: &[u8], event: Event) -> Vec<String> {
    let what = match event.what {
        What::Request { .. } => "request",
        What::End { .. } => "end",
        _ => "end response",
    };
    let by = event.what.by().unwrap_or(event.stream);
    let mut sorts = vec![of_event(what, by == event.stream, packet[0] & 0x10 != 0)];
    sorts.extend([format!("events by seat {by}"), format!("events on stream {}", event.stream)]);
    sorts.push(FORMS[usize::from(is_canonical(sheet, packet))].to_string());
    let ssrc = sheet.ssrcs[usize::from(by)];
    let by_ssrc = those(SSRCS, [ssrc == 0, ssrc == sheet.number("server")]);
    sorts.extend(by_ssrc.map(|ssrc| format!("events by a seat with {ssrc}")));
    sorts
}

/// All refusals that hold of a packet besides 12 for the rows, in the order in which they are checked.
fn refusals(sheet: &Sheet, packet: &[u8], reading: &Reading) -> Vec<u32> {
    match reading {
        Err(refusal) => vec![*refusal],
        Ok(message) => {
            let is_nobody = sender(sheet, packet, message).is_none();
            let of_nobody = stream(sheet, packet, message, 0).is_none();
            those([8, 6, 7], [NO_EVENTS.contains(&message.kind), is_nobody, of_nobody]).collect()
        }
    }
}

/// Why a message is refused with 6.
fn of_sender(sheet: &Sheet, packet: &[u8], message: &Message) -> Vec<String> {
    let by_ssrc = sheet.seat_by_ssrc(message.ssrc);
    let by_user = message.user.clone().map(|user| sheet.seat_by_user(&packet[user]));
    let is = [
        by_ssrc.is_none() && by_user.is_none(),
        by_ssrc.is_none() && matches!(by_user, Some(Some(_))),
        by_ssrc.is_none() && by_user == Some(None),
        by_ssrc.is_some() && matches!(by_user, Some(Some(_))),
        by_ssrc.is_some() && by_user == Some(None),
        by_ssrc.is_none() && message.ssrc == 0 && sheet.rows() < SEATS,
    ];
    those(SENDERS, is).map(|sort| format!("senders refused, {sort}")).collect()
}

/// What the name is in a message that is refused with 7.
fn of_named(sheet: &Sheet, packet: &[u8], message: &Message) -> Vec<String> {
    let name = &packet[message.named.clone().expect("a name of nobody")];
    let differ = |user: &[u8]| user.iter().zip(name).filter(|(a, b)| a != b).count();
    let is = [
        sheet.user_ids().any(|user| user.starts_with(name)),
        sheet.user_ids().any(|user| name.starts_with(user)),
        sheet.user_ids().any(|user| user.len() == name.len() && differ(user) == 1),
    ];
    those(NAMED, is).map(|sort| format!("names refused, {sort}")).collect()
}

/// One refusal that is given while another holds too.
pub fn at_once(what: &str, given: u32, other: u32) -> String {
    format!("{what} refused at once, {given:2} before {other:2}")
}

/// What a packet offered turned out to be.
pub fn of_packet(sheet: &Sheet, packet: &[u8], offered: Offered) -> Vec<String> {
    let refusal = match offered {
        Ok(event) => return of_events(sheet, packet, event),
        Err(refusal) => refusal,
    };
    let reading = packet::read(sheet, packet);
    let mut sorts = vec![format!("packets refused, {refusal:2}")];
    let others = refusals(sheet, packet, &reading).into_iter().filter(|other| *other != refusal);
    sorts.extend(others.map(|other| at_once("packets", refusal, other)));
    match (refusal, &reading) {
        (6, Ok(message)) => sorts.extend(of_sender(sheet, packet, message)),
        (7, Ok(message)) => sorts.extend(of_named(sheet, packet, message)),
        _ => (),
    }
    sorts
}

/// All refusals that hold of an answer to send, in the order in which they are checked. Off the sheet a buffer is
/// too short if it is so for every packet.
fn refusals_to_send(sheet: &Sheet, stream: u8, answer: &Numbered, room: usize) -> Vec<u32> {
    let on_sheet = is_on_sheet(sheet, stream);
    let packet = if on_sheet { sent(sheet, stream, &answer.answer) } else { None };
    let is_short = answer.sends() && room < packet.map_or(SHORTEST, |packet| packet.len());
    those([12, 9, 11], [!sheet.is_valid(), !on_sheet, is_short]).collect()
}

/// What an answer to send turned out to be.
pub fn of_answer(sheet: &Sheet, stream: u8, answer: &Numbered, room: usize, sending: Sending) -> Vec<String> {
    let name = answer.name;
    match sending {
        Ok(Some(_)) => vec![format!("answers written, {name}")],
        Ok(None) => vec![format!("answers that send nothing, {name}")],
        Err(refusal) => {
            let others = refusals_to_send(sheet, stream, answer, room).into_iter().skip(1);
            let at_once = others.map(|other| at_once("answers", refusal, other));
            [format!("answers refused, {refusal:2}, {name}")].into_iter().chain(at_once).collect()
        }
    }
}

#[cfg(test)]
mod tests {
    use super::*;
    use crate::bench::{octets, sheet_s, PACKETS};
    use crate::controller::events::{event_of, judged};
    use crate::controller::sending::packet_of;
    use crate::controller::{self, Case};

    /// Every so many of the made cases.
    const STEP: usize = 5;

    #[test]
    fn the_first_that_holds_is_given() {
        for case in controller::cases(3, 0).iter().step_by(STEP) {
            match case {
                Case::Events(value, packets) => packets.iter().for_each(|packet| {
                    let held = refusals(value, packet, &packet::read(value, packet));
                    let first = judged(value).map_or(Some(12), |_| held.first().copied());
                    assert_eq!(event_of(judged(value), packet).err(), first, "{packet:?}");
                }),
                Case::Packet(sheet, stream, answer, room) => {
                    let given = packet_of(sheet, *stream, &answer.answer, &mut vec![0; *room]);
                    let held = refusals_to_send(sheet, *stream, answer, *room);
                    assert_eq!(given.err(), held.first().copied(), "{answer:?} on {stream} into {room}");
                }
            }
        }
    }

    #[test]
    fn sheet_s_and_p3() {
        assert_eq!(of_sheet(&sheet_s()), ["sheets with fewer than eight seats", "sheets, 3 seats"]);
        let p3 = octets(PACKETS[2]);
        let sorts = of_packet(&sheet_s(), &p3, event_of(judged(&sheet_s()), &p3));
        let request = "events, request on another's stream, no Ack asked";
        assert_eq!(sorts, [request, "events by seat 1", "events on stream 0", "events of canonical packets"]);
    }

    #[test]
    fn what_is_refused_in_words() {
        let sorts = |hex| of_packet(&sheet_s(), &octets(hex), event_of(judged(&sheet_s()), &octets(hex)));
        let of_nobody = "81CC0006000000004D43563006057369703A620006057369703A7800";
        assert_eq!(
            sorts(of_nobody),
            [
                "packets refused,  6",
                "packets refused at once,  6 before  7",
                "senders refused, SSRC of nobody, User ID of a seat",
                "senders refused, SSRC 0 of nobody while a row is unused"
            ]
        );
        let begins = "83CC0004000000024D43563206047369703A0000";
        assert_eq!(sorts(begins), ["packets refused,  7", "names refused, begins a seat's User ID"]);
        assert_eq!(sorts(PACKETS[0]), ["packets refused,  8", "packets refused at once,  8 before  6"]);
    }
}
