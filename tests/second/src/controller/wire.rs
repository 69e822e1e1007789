//! What is asked about the controller, and the answers, as octets of the program `answers`.

use super::answers::Numbered;
use super::events::{event_of, judged, Offered};
use super::sending::{packet_of, Sending};
use crate::drafts::Octets;
use crate::reception::octets::event;
use crate::sheet::Sheet;
use crate::wire::{counted, lent, octets_of, sheet_octets, with_length};

/// As many packets, and as long a buffer, as the answer to one case has room for.
const PACKETS: usize = 85;
pub const LONGEST_LENT: usize = 1004;

/// How many octets of an answer are for each packet offered; and how many say what was sent, before the buffer.
pub const EVENT: usize = 12;
pub const SENT: usize = 16;

/// Packets offered as events under a value; or under one, an answer on a stream, with the length of the buffer.
#[derive(Clone)]
pub enum Case {
    Events(Sheet, Vec<Octets>),
    Packet(Sheet, u8, Numbered, usize),
}

/// What each packet makes; or what was sent, and the buffer afterwards.
pub enum Answers {
    Events(Vec<Offered>),
    Packet(Sending, Octets),
}

/// The cases that offer all packets under a value.
pub fn event_cases(sheet: &Sheet, packets: &[Octets]) -> Vec<Case> {
    packets.chunks(PACKETS).map(|some| Case::Events(sheet.clone(), some.to_vec())).collect()
}

impl Case {
    /// The case as octets: what is asked, a length, and that many octets.
    pub fn octets(&self) -> Octets {
        let (asked, sheet, rest) = match self {
            Case::Events(sheet, packets) => (13, sheet, packets.iter().flat_map(|packet| counted(packet)).collect()),
            Case::Packet(sheet, stream, Numbered { number, answer, .. }, room) => {
                let [cause, room] = [answer.cause.unwrap_or(0), *room as u16].map(u16::to_be_bytes);
                (14, sheet, [&[*stream, *number], &cause[..], &room].concat())
            }
        };
        [vec![asked], with_length([sheet_octets(sheet), rest].concat())].concat()
    }

    /// How many octets of the answer are for each of its parts.
    pub fn part_size(&self) -> usize {
        match self {
            Case::Events(..) => EVENT,
            Case::Packet(_, _, _, room) => SENT + room,
        }
    }

    /// The answer that document 01 gives.
    pub fn answers(&self) -> Answers {
        match self {
            Case::Events(value, packets) => {
                let sheet = judged(value);
                Answers::Events(packets.iter().map(|packet| event_of(sheet, packet)).collect())
            }
            Case::Packet(sheet, stream, Numbered { answer, .. }, room) => {
                let mut out = lent(*room);
                Answers::Packet(packet_of(sheet, *stream, answer, &mut out), out)
            }
        }
    }
}

/// The refusal and its place, and the event.
fn offered_octets(offered: &Offered) -> Octets {
    [octets_of([offered.err().unwrap_or(0), 0]), offered.map_or([0; 4], event).to_vec()].concat()
}

/// What was sent: 0 where it is refused, 1 a packet, 2 nothing; how many octets; the refusal and its place.
fn sending_numbers(sending: &Sending) -> [u32; 4] {
    match sending {
        Err(refusal) => [0, 0, *refusal, 0],
        Ok(Some(octets)) => [1, *octets as u32, 0, 0],
        Ok(None) => [2, 0, 0, 0],
    }
}

impl Answers {
    /// The answer as octets, without the length that stands before it.
    pub fn body(&self) -> Octets {
        match self {
            Answers::Events(offered) => offered.iter().flat_map(offered_octets).collect(),
            Answers::Packet(sending, out) => [octets_of(sending_numbers(sending)), out.clone()].concat(),
        }
    }
}

#[cfg(test)]
mod tests {
    use super::*;
    use crate::bench::{octets, sheet_s, PACKETS as BENCH};
    use crate::controller::answers;

    #[test]
    fn questions() {
        let p3 = octets(BENCH[2]);
        let events = Case::Events(sheet_s(), vec![p3.clone(), vec![], vec![7]]).octets();
        assert_eq!(events[..9], [13, 0, 0, 2, 79, 0, 0, 3, 232]);
        assert_eq!(events[5..561], sheet_octets(&sheet_s()));
        assert_eq!(events[561..], [&[0, 28][..], &p3, &[0, 0, 0, 1, 7]].concat());
        let asked = |answer, room| Case::Packet(sheet_s(), 255, answer, room).octets();
        let [_, granted, _, rejected, ..] = answers::all(258);
        assert_eq!(asked(rejected, 259)[..9], [14, 0, 0, 2, 50, 0, 0, 3, 232]);
        assert_eq!(asked(rejected, 259)[561..], [255, 4, 1, 2, 1, 3]);
        assert_eq!(asked(granted, 0)[561..], [255, 2, 0, 0, 0, 0]);
    }

    #[test]
    fn what_is_answered() {
        let p3 = octets(BENCH[2]);
        let offered = Case::Events(sheet_s(), vec![p3, vec![]]).answers().body();
        assert_eq!(offered, [[0, 0, 0, 0, 0, 0, 0, 0, 1, 0, 1, 0], [0, 0, 0, 1, 0, 0, 0, 0, 0, 0, 0, 0]].concat());
        let said = |stream, answer, room| Case::Packet(sheet_s(), stream, answer, room).answers().body();
        let [granted, .., discarded] = answers::all(0);
        let sent = [&[0, 0, 0, 1, 0, 0, 0, 16, 0, 0, 0, 0, 0, 0, 0, 0], &octets(BENCH[0])[..], &[101]].concat();
        assert_eq!(said(0, granted, 17), sent);
        assert_eq!(said(0, granted, 1), [0, 0, 0, 0, 0, 0, 0, 0, 0, 0, 0, 11, 0, 0, 0, 0, 11]);
        assert_eq!(said(3, discarded, 1), [0, 0, 0, 0, 0, 0, 0, 0, 0, 0, 0, 9, 0, 0, 0, 0, 11]);
        assert_eq!(said(2, discarded, 2), [0, 0, 0, 2, 0, 0, 0, 0, 0, 0, 0, 0, 0, 0, 0, 0, 11, 48]);
    }

    #[test]
    fn an_answer_has_room() {
        let cases = event_cases(&sheet_s(), &vec![vec![]; 100]);
        assert_eq!(cases.iter().map(|case| case.answers().body().len()).max(), Some(1020));
        let [.., discarded] = answers::all(0);
        assert_eq!(Case::Packet(sheet_s(), 0, discarded, LONGEST_LENT).answers().body().len(), 1020);
    }
}
