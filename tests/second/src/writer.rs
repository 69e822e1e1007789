//! The writer, from document 01 alone: the packet of a message, and what a message says wherever its names lie.

use crate::drafts::{Draft, Octets, Part};
use crate::packet::{Message, INDICATOR, MESSAGES, MESSAGE_TYPE, REJECT_CAUSE, SOURCE, USER_ID};
use crate::sheet::{self, Sheet};
use std::ops::Range;

/// How many octets were written, or the number of the refusal.
pub type Writing = Result<usize, u32>;

/// What a message says: its values but for the places of its names, and the names as octets.
pub type Meaning<'a> = (Message, [Option<&'a [u8]>; 2]);

/// What a message says whose names lie in these octets.
pub fn meaning<'a>(message: &Message, octets: &'a [u8]) -> Meaning<'a> {
    let name = |place: &Option<Range<usize>>| octets.get(place.clone()?);
    (Message { user: None, named: None, ..message.clone() }, [name(&message.user), name(&message.named)])
}

fn number(id: u8, number: Option<u16>) -> Option<Part> {
    Some(Part(id, number?.to_be_bytes().to_vec()))
}

fn message_type(about: Option<u8>) -> Option<Part> {
    Some(Part(MESSAGE_TYPE, vec![about?, 0]))
}

/// A User ID, if its place lies in `names` and one stands there.
fn user_id(place: &Option<Range<usize>>, names: &[u8]) -> Option<Part> {
    let name = names.get(place.clone()?)?;
    sheet::is_user_id(name).then(|| Part(USER_ID, name.to_vec()))
}

/// The fields that a message of its kind has to have, in the order written.
fn needed(sheet: &Sheet, message: &Message, names: &[u8]) -> Option<Vec<Part>> {
    let result = || number(sheet.number("resultid") as u8, message.result);
    let cause = || number(REJECT_CAUSE, message.cause);
    let named = || user_id(&message.named, names);
    Some(match message.kind {
        1 => vec![user_id(&message.user, names)?, named()?],
        2 if message.result == Some(0) => vec![result()?, cause()?],
        2 => vec![result()?],
        3 | 4 => vec![named()?],
        5 => vec![cause()?],
        6 => vec![],
        7 => vec![number(SOURCE, message.source)?, message_type(message.about)?],
        _ => return None,
    })
}

/// The packet, under a good sheet, of a message that has the values of its kind and no others; none if a name is not right.
pub fn packet_of(sheet: &Sheet, message: &Message, names: &[u8]) -> Option<Octets> {
    let mut fields = needed(sheet, message, names)?;
    fields.extend(number(INDICATOR, message.indicator));
    let (letters, key) = MESSAGES[message.kind as usize - 1];
    let number = sheet.number(key) as u8;
    Some(Draft { ack: message.ack, number, ssrc: message.ssrc, letters: *letters, fields }.octets())
}

/// Writes a message into the front of `out`; or the first that holds of 12, 5 and 11, and `out` is left alone.
pub fn write(sheet: &Sheet, message: &Message, names: &[u8], out: &mut [u8]) -> Writing {
    if !sheet.is_valid_alone() {
        return Err(12);
    }
    let packet = packet_of(sheet, message, names).ok_or(5u32)?;
    out.get_mut(..packet.len()).ok_or(11u32)?.copy_from_slice(&packet);
    Ok(packet.len())
}

#[cfg(test)]
mod tests {
    use super::*;
    use crate::bench::{messages, octets, sheet_s, NAMES, PACKETS};
    use crate::{drafts, good, packet, random::Random, wire};

    /// What is written into a lent buffer of this length, and what then stands there.
    fn written(sheet: &Sheet, message: &Message, names: &[u8], room: usize) -> (Writing, Octets) {
        let mut out = wire::lent(room);
        (write(sheet, message, names, &mut out), out)
    }

    #[test]
    fn bench_cases_come_out_octet_for_octet() {
        for (message, hex) in messages().iter().zip(PACKETS) {
            let packet = octets(hex);
            for past in [0, 1, 8] {
                let (writing, out) = written(&sheet_s(), message, NAMES, packet.len() + past);
                assert_eq!((writing, &out[..packet.len()]), (Ok(packet.len()), &packet[..]));
                assert_eq!(out[packet.len()..], wire::lent(out.len())[packet.len()..]);
            }
        }
    }

    #[test]
    fn refusals_are_given_in_their_order_and_leave_the_buffer() {
        let request = &messages()[2];
        let (none, bad) = (&Message { user: Some(5..11), ..request.clone() }, &Sheet::ZERO);
        let refused = |sheet: &Sheet, message: &Message, room: usize| {
            let (writing, out) = written(sheet, message, NAMES, room);
            assert_eq!(out, wire::lent(room));
            writing.unwrap_err()
        };
        assert_eq!([refused(bad, none, 0), refused(bad, request, 28)], [12, 12]);
        assert_eq!([refused(&sheet_s(), none, 0), refused(&sheet_s(), none, 28)], [5, 5]);
        for room in 0..28 {
            assert_eq!(refused(&sheet_s(), request, room), 11);
        }
    }

    #[test]
    fn a_name_has_edges() {
        let end = |names: &[u8], place: Range<usize>| {
            let message = Message { kind: 4, named: Some(place), ..Message::default() };
            written(&sheet_s(), &message, names, 80).0
        };
        let long = [b'~'; 61];
        assert_eq!([end(&long, 0..1), end(&long, 1..61), end(&long, 60..61)], [Ok(16), Ok(76), Ok(16)]);
        for place in [0..0, 61..61, 0..61, 61..62, 60..62, 1 << 32..(1 << 32) + 1] {
            assert_eq!(end(&long, place.clone()), Err(5), "{place:?}");
        }
        for octet in [0, 0x20, 0x7F, 0xFF] {
            assert_eq!(end(&[b'a', octet, b'b'], 0..3), Err(5), "{octet}");
            assert_eq!(end(&[b'a', octet, b'b'], 2..3), Ok(16), "{octet}");
        }
        assert_eq!(end(b"!", 0..1), Ok(16));
    }

    #[test]
    fn what_was_read_is_written_again_without_its_phrase() {
        let random = &mut Random::new(1);
        for kind in packet::kinds() {
            let sheet = good::sheet(random, 8);
            for mut draft in drafts::of_kind(random, &sheet, kind) {
                let message = packet::read(&sheet, &draft.octets()).unwrap();
                let again = packet_of(&sheet, &message, &draft.octets());
                for Part(_, cause) in draft.fields.iter_mut().filter(|Part(id, _)| *id == REJECT_CAUSE) {
                    cause.truncate(2);
                }
                assert_eq!(again, Some(draft.octets()));
            }
        }
    }

    #[test]
    fn a_meaning_is_the_same_wherever_the_names_lie() {
        let packet = octets(PACKETS[2]);
        let read = packet::read(&sheet_s(), &packet).unwrap();
        let request = &messages()[2];
        assert_eq!(meaning(&read, &packet), meaning(request, NAMES));
        assert_ne!(meaning(&read, &packet), meaning(request, b"sip:bsip:a"));
    }
}
