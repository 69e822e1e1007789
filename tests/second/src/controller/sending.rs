//! What an answer sends, written from document 01 alone: its message, and the packet of that in a lent buffer.

use super::events::judged;
use crate::drafts::Octets;
use crate::packet::Message;
use crate::reception::table::Answer;
use crate::sheet::{self, Sheet};
use crate::writer;

/// What an Ack says: its Source and its Message Type.
const ACK: (u16, u8) = (2, 1);

/// How many octets were written, none where the answer sends nothing; or the number of the refusal.
pub type Sending = Result<Option<usize>, u32>;

pub fn is_on_sheet(sheet: &Sheet, stream: u8) -> bool {
    usize::from(stream) < sheet.rows()
}

/// The message that an answer on a stream of the sheet sends. A name in it lies in the stream's row of User IDs.
pub fn message_of(sheet: &Sheet, stream: u8, answer: &Answer) -> Option<Message> {
    let kind = u32::from(answer.kind?);
    let transmitter = 0..sheet::name_in(&sheet.users[usize::from(stream)]).len();
    let (source, about) = ACK;
    Some(Message {
        kind,
        ssrc: sheet.number("server"),
        named: (kind == 4).then_some(transmitter),
        result: answer.result.map(u16::from),
        cause: answer.cause,
        source: (kind == 7).then_some(source),
        about: (kind == 7).then_some(about),
        ..Message::default()
    })
}

/// The packet that an answer on a stream of a good sheet sends.
pub fn sent(sheet: &Sheet, stream: u8, answer: &Answer) -> Option<Octets> {
    let message = message_of(sheet, stream, answer)?;
    writer::packet_of(sheet, &message, &sheet.users[usize::from(stream)])
}

/// Writes the packet of an answer into the front of `out`; or the first that holds of 12, 9 and 11. Where it is
/// refused, or the answer sends nothing, `out` is left alone.
pub fn packet_of(sheet: &Sheet, stream: u8, answer: &Answer, out: &mut [u8]) -> Sending {
    let sheet = judged(sheet)?;
    if !is_on_sheet(sheet, stream) {
        return Err(9);
    }
    match message_of(sheet, stream, answer) {
        Some(message) => writer::write(sheet, &message, &sheet.users[usize::from(stream)], out).map(Some),
        None => Ok(None),
    }
}

#[cfg(test)]
mod tests {
    use super::*;
    use crate::bench::{octets, sheet_s, PACKETS};
    use crate::controller::answers::{self, Numbered};
    use crate::wire::lent;

    /// What comes of an answer in a lent buffer of this length, and what then stands there.
    fn sending(sheet: &Sheet, stream: u8, answer: &Numbered, room: usize) -> (Sending, Octets) {
        let mut out = lent(room);
        (packet_of(sheet, stream, &answer.answer, &mut out), out)
    }

    #[test]
    fn bench_cases_come_out_octet_for_octet() {
        let p = |at: usize| octets(PACKETS[at - 1]);
        let [_, _, _, rejected, ..] = answers::all(0);
        let [first, granted, again, _, _, _, _, end_requested, _, with_ack, ..] = answers::all(8);
        let cases =
            [(first, p(1)), (granted, p(1)), (again, p(1)), (rejected, p(2)), (end_requested, p(4)), (with_ack, p(5))];
        for (answer, packet) in cases {
            for past in [0, 1, 8] {
                let (sending, out) = sending(&sheet_s(), 2, &answer, packet.len() + past);
                assert_eq!((sending, &out[..packet.len()]), (Ok(Some(packet.len())), &packet[..]), "{answer:?}");
                assert_eq!(out[packet.len()..], lent(out.len())[packet.len()..]);
            }
        }
    }

    #[test]
    fn an_end_response_names_the_transmitter() {
        let [_, _, _, _, ended, last, ..] = answers::all(0);
        for (stream, letter) in [(0, "61"), (1, "62"), (2, "63")] {
            let packet = octets(&format!("84CC0004000003E84D43563206057369703A{letter}00"));
            for answer in [ended, last] {
                assert_eq!(sending(&sheet_s(), stream, &answer, 20), (Ok(Some(20)), packet.clone()), "{answer:?}");
            }
        }
    }

    #[test]
    fn an_answer_that_sends_nothing_leaves_any_buffer() {
        let silent: Vec<Numbered> = answers::all(0).into_iter().filter(|answer| !answer.sends()).collect();
        assert_eq!(silent.len(), 6);
        for answer in silent {
            for room in [0, 1, 11, 16, 100] {
                assert_eq!(sending(&sheet_s(), 0, &answer, room), (Ok(None), lent(room)), "{answer:?}");
            }
        }
    }

    #[test]
    fn refusals_are_given_in_their_order_and_leave_the_buffer() {
        let mut spoilt = sheet_s();
        spoilt.users[2][59] = b'x';
        for answer in answers::all(0) {
            let refused = |sheet: &Sheet, stream, room| {
                let (sending, out) = sending(sheet, stream, &answer, room);
                assert_eq!(out, lent(room));
                sending.err()
            };
            for stream in [0, 3, 8, 255] {
                assert_eq!([0, 100].map(|room| refused(&spoilt, stream, room)), [Some(12); 2]);
                assert_eq!([0, 100].map(|room| refused(&Sheet::ZERO, stream, room)), [Some(12); 2]);
            }
            for stream in [3, 7, 8, 255] {
                assert_eq!([0, 100].map(|room| refused(&sheet_s(), stream, room)), [Some(9); 2]);
            }
            if let Some(packet) = sent(&sheet_s(), 0, &answer.answer) {
                assert!((0..packet.len()).all(|room| refused(&sheet_s(), 0, room) == Some(11)), "{answer:?}");
            }
        }
    }
}
