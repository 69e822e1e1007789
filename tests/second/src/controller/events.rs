//! Events, written from document 01 alone: what a packet asks of reception, by whom and on which stream.

use crate::packet::{self, Message};
use crate::reception::table::{Event, What};
use crate::sheet::Sheet;
use std::ops::Range;

/// The kinds that make no event.
pub const NO_EVENTS: [u32; 4] = [2, 4, 5, 7];

/// A sheet, or in its place refusal 12 (line 0), which comes before all other checks.
pub type Judged<'a> = Result<&'a Sheet, u32>;

/// The event that a packet makes, or the number of the refusal.
pub type Offered = Result<Event, u32>;

/// Refused with 12 if no sheet reads to the value.
pub fn judged(value: &Sheet) -> Judged<'_> {
    if value.is_valid() {
        Ok(value)
    } else {
        Err(12)
    }
}

/// The seat that has the User ID at a place of the packet.
fn seat_at(sheet: &Sheet, packet: &[u8], place: &Range<usize>) -> Option<usize> {
    sheet.seat_by_user(&packet[place.clone()])
}

/// The seat that has the sender's SSRC; none where the message has a User ID, and it is not that seat's.
pub fn sender(sheet: &Sheet, packet: &[u8], message: &Message) -> Option<usize> {
    let is_its = |seat: &usize| message.user.iter().all(|user| seat_at(sheet, packet, user) == Some(*seat));
    sheet.seat_by_ssrc(message.ssrc).filter(is_its)
}

/// The seat whose stream a message of a sender is about: of the user that it names, or its own where it names none.
pub fn stream(sheet: &Sheet, packet: &[u8], message: &Message, sender: usize) -> Option<usize> {
    message.named.as_ref().map_or(Some(sender), |named| seat_at(sheet, packet, named))
}

/// The event of a packet, or the first that holds of 12, 1 to 5, 8, 6 and 7.
pub fn event_of(sheet: Judged, packet: &[u8]) -> Offered {
    let sheet = sheet?;
    let message = packet::read(sheet, packet)?;
    if NO_EVENTS.contains(&message.kind) {
        return Err(8);
    }
    let sender = sender(sheet, packet, &message).ok_or(6u32)?;
    let stream = stream(sheet, packet, &message, sender).ok_or(7u32)? as u8;
    let by = sender as u8;
    let what = match message.kind {
        1 => What::Request { by },
        3 => What::End { by },
        _ => What::EndResponse { ack: message.ack },
    };
    Ok(Event { stream, what })
}

#[cfg(test)]
mod tests {
    use super::*;
    use crate::bench::{octets, s_with, sheet_s, PACKETS};
    use crate::drafts::{Draft, Part};
    use crate::packet::{MESSAGES, USER_ID};
    use crate::sample::REFUSED;
    use crate::sheet;

    /// A packet of a kind, with these names in its User IDs.
    fn packet(kind: u32, ssrc: u32, names: &[&str]) -> Vec<u8> {
        let (letters, key) = MESSAGES[kind as usize - 1];
        let number = sheet_s().number(key) as u8;
        let fields = names.iter().map(|name| Part(USER_ID, name.as_bytes().to_vec())).collect();
        Draft { ack: false, number, ssrc, letters: *letters, fields }.octets()
    }

    fn under_s(packet: &[u8]) -> Offered {
        event_of(judged(&sheet_s()), packet)
    }

    fn event(stream: u8, what: What) -> Offered {
        Ok(Event { stream, what })
    }

    #[test]
    fn p3_is_a_request_by_seat_1_on_stream_0() {
        assert_eq!(octets(PACKETS[2]), packet(1, 2, &["sip:b", "sip:a"]));
        assert_eq!(under_s(&octets(PACKETS[2])), event(0, What::Request { by: 1 }));
    }

    #[test]
    fn each_kind_that_makes_an_event() {
        assert_eq!(under_s(&packet(1, 3, &["sip:c", "sip:c"])), event(2, What::Request { by: 2 }));
        assert_eq!(under_s(&packet(3, 1, &["sip:c"])), event(2, What::End { by: 0 }));
        assert_eq!(under_s(&packet(3, 1, &["sip:a"])), event(0, What::End { by: 0 }));
        assert_eq!(under_s(&packet(6, 3, &[])), event(2, What::EndResponse { ack: false }));
    }

    #[test]
    fn only_an_end_response_tells_of_the_ack() {
        let asked = |mut packet: Vec<u8>| {
            packet[0] |= 0x10;
            under_s(&packet)
        };
        assert_eq!(asked(packet(6, 3, &[])), event(2, What::EndResponse { ack: true }));
        assert_eq!(asked(packet(1, 2, &["sip:b", "sip:a"])), event(0, What::Request { by: 1 }));
        assert_eq!(asked(packet(3, 2, &["sip:a"])), event(0, What::End { by: 1 }));
    }

    #[test]
    fn a_packet_that_does_not_read() {
        assert_eq!(REFUSED.map(|hex| under_s(&octets(hex))), [1, 2, 3, 4, 5].map(Err));
    }

    #[test]
    fn kinds_that_make_no_event_come_before_a_sender_that_is_nobody() {
        for hex in [PACKETS[0], PACKETS[1], PACKETS[3], PACKETS[4]] {
            assert_eq!(under_s(&octets(hex)), Err(8), "{hex}");
        }
        assert_eq!([packet(4, 1, &["sip:a"]), packet(4, 9, &["sip:x"])].map(|packet| under_s(&packet)), [Err(8); 2]);
    }

    #[test]
    fn senders_that_are_nobody() {
        assert_eq!([0, 4, 1000].map(|ssrc| under_s(&packet(6, ssrc, &[]))), [Err(6); 3]);
        assert_eq!([0, 4, 1000].map(|ssrc| under_s(&packet(3, ssrc, &["sip:a"]))), [Err(6); 3]);
        for user in ["sip:a", "sip:", "sip:bb", "sip:B", "sip:x"] {
            assert_eq!(under_s(&packet(1, 2, &[user, "sip:a"])), Err(6), "{user}");
            assert_eq!(under_s(&packet(1, 2, &[user, "sip:x"])), Err(6), "{user}");
            assert_eq!(under_s(&packet(1, 9, &[user, "sip:x"])), Err(6), "{user}");
        }
        assert_eq!(under_s(&packet(1, 9, &["sip:b", "sip:a"])), Err(6));
    }

    #[test]
    fn streams_of_nobody() {
        for named in ["sip:", "sip:aa", "sip:A", "sip:x", "s"] {
            assert_eq!(under_s(&packet(1, 2, &["sip:b", named])), Err(7), "{named}");
            assert_eq!(under_s(&packet(3, 2, &[named])), Err(7), "{named}");
            assert_eq!(under_s(&packet(3, 9, &[named])), Err(6), "{named}");
        }
    }

    #[test]
    fn ssrc_0_is_that_of_the_seat_that_has_it() {
        let (sheet, _) = sheet::read(s_with("seat=2,", "seat=0,").as_bytes()).unwrap();
        let end_response = packet(6, 0, &[]);
        assert_eq!(event_of(judged(&sheet), &end_response), event(1, What::EndResponse { ack: false }));
        assert_eq!(under_s(&end_response), Err(6));
    }

    #[test]
    fn a_value_that_no_sheet_reads_to_comes_first() {
        let (mut numbers, mut row, mut unused) = (sheet_s(), sheet_s(), sheet_s());
        numbers.set("limit", 9);
        row.users[1][7] = b'x';
        unused.ssrcs[5] = 1;
        for value in [numbers, row, unused, Sheet::ZERO] {
            for packet in [vec![], octets(PACKETS[0]), octets(PACKETS[2]), packet(3, 9, &["sip:x"])] {
                assert_eq!(event_of(judged(&value), &packet), Err(12));
            }
        }
    }
}
