//! The few cases about the controller that the program `answers` is run on by itself.

use super::answers;
use super::wire::Case;
use crate::bench::{octets, sheet_s, PACKETS};
use crate::drafts::Octets;
use crate::sample::REFUSED;
use crate::sheet::Sheet;

/// Under S: a request of seat 1 for its own stream; ends by seat 1, for seat 2 and for itself; and end responses of
/// seat 2, without and with an Ack asked.
const EVENTS: [&str; 5] = [
    "81CC0006000000024D43563006057369703A620006057369703A6200",
    "83CC0004000000024D43563206057369703A6300",
    "83CC0004000000024D43563206057369703A6200",
    "86CC0002000000034D435632",
    "96CC0002000000034D435632",
];

/// Under S: senders that have no seat, in kinds 6 and 3, the second of which names nobody as well; and a request of
/// seat 1 with the User ID of seat 2.
const NO_SENDERS: [&str; 3] = [
    "86CC0002000000004D435632",
    "83CC0004000003E84D43563206057369703A7800",
    "81CC0006000000024D43563006057369703A630006057369703A6100",
];

/// Under S: a request for and an end of the stream of a User ID that is a part of a seat's, and that is longer.
const NO_STREAMS: [&str; 2] =
    ["81CC0006000000024D43563006057369703A620006047369703A0000", "83CC0004000000024D43563206067369703A6161"];

/// Under S: an end response of reception, which makes no event.
const END_RESPONSE: &str = "84CC0004000000024D43563206057369703A6100";

fn packets(hex: &[&str]) -> Vec<Octets> {
    hex.iter().map(|hex| octets(hex)).collect()
}

/// S with an octet behind the User ID of seat 0.
fn spoilt() -> Sheet {
    let mut sheet = sheet_s();
    sheet.users[0][59] = b'x';
    sheet
}

/// Packets under S: P3 and others that make an event, and every refusal; and P3 under a value that no sheet reads to.
fn offered() -> Vec<Case> {
    let [p1, p2, p3, p4, p5] = PACKETS;
    let all = [&[p3][..], &EVENTS, &REFUSED, &[p1, p2, p4, p5, END_RESPONSE], &NO_SENDERS, &NO_STREAMS].concat();
    vec![Case::Events(sheet_s(), packets(&all)), Case::Events(spoilt(), packets(&[p3]))]
}

/// Every answer on stream 1 into a buffer that is longer, rejections with cause 0 and end requests with cause 8; and
/// what is refused: no sheet, a stream off the sheet, one octet short.
fn answered() -> Vec<Case> {
    let mut all = answers::all(8);
    all[3] = answers::all(0)[3];
    let [granted, .., discarded] = all;
    let mut cases = all.map(|answer| Case::Packet(sheet_s(), 1, answer, 24)).to_vec();
    cases.push(Case::Packet(spoilt(), 1, granted, 24));
    cases.extend([Case::Packet(sheet_s(), 3, discarded, 0), Case::Packet(sheet_s(), 0, granted, 15)]);
    cases
}

pub fn cases() -> Vec<Case> {
    [offered(), answered()].concat()
}

#[cfg(test)]
mod tests {
    use super::*;
    use crate::asked::Asked;
    use crate::controller::wire::{EVENT, SENT};

    #[test]
    fn packets_offered_have_their_octets() {
        let event = |octets: [u8; 4]| [[0; 4], [0; 4], octets].concat();
        let refused = |refusal| [0, 0, 0, refusal, 0, 0, 0, 0, 0, 0, 0, 0].to_vec();
        let mut said =
            [[1, 0, 1, 0], [1, 1, 1, 0], [2, 2, 1, 0], [2, 1, 1, 0], [5, 2, 0, 0], [5, 2, 0, 1]].map(event).to_vec();
        said.extend([1, 2, 3, 4, 5, 8, 8, 8, 8, 8, 6, 6, 6, 7, 7].map(refused));
        let body = offered()[0].expected();
        assert_eq!(body.chunks(EVENT).collect::<Vec<_>>(), said);
        assert_eq!(offered()[1].expected(), refused(12));
    }

    #[test]
    fn answers_have_their_octets() {
        let p = |at: usize| octets(PACKETS[at - 1]);
        let ended = octets("84CC0004000003E84D43563206057369703A6200");
        let sent = [(0, p(1)), (1, p(1)), (2, p(1)), (3, p(2)), (4, ended.clone()), (5, ended), (7, p(4)), (9, p(5))];
        for (at, packet) in sent {
            let body = answered()[at].expected();
            assert_eq!(body[..SENT], [[0, 0, 0, 1], [0, 0, 0, packet.len() as u8], [0; 4], [0; 4]].concat());
            assert_eq!(body[SENT..SENT + packet.len()], packet);
        }
        for at in [6, 8, 10, 11, 12, 13] {
            assert_eq!(answered()[at].expected()[..SENT], [[0, 0, 0, 2], [0; 4], [0; 4], [0; 4]].concat());
        }
        let refused = answered()[14..].iter().map(|case| case.expected()[11]).collect::<Vec<u8>>();
        assert_eq!(refused, [12, 9, 11]);
    }
}
