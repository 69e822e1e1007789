//! Judges the answers about the controller: by the second program's, and by what the octets written read back to.

use super::sending::message_of;
use super::tally::Tally;
use super::wire::{Case, SENT};
use crate::asked::{of_length, Asked};
use crate::drafts::Octets;
use crate::packet;
use crate::shown::{hex, shown_sheet};
use crate::wire::take_number;
use crate::writer;

/// What a case asks in one of its parts.
fn asked(case: &Case, at: usize) -> String {
    match case {
        Case::Events(sheet, packets) => format!("packet {} under {}", hex(&packets[at]), shown_sheet(sheet)),
        Case::Packet(sheet, stream, answer, room) => {
            format!("{answer:?} on stream {stream} into {room} octets under {}", shown_sheet(sheet))
        }
    }
}

/// The octets that an answer says were written, if it says so.
fn written(got: &[u8]) -> Option<&[u8]> {
    let (mut said, out) = got.split_at_checked(SENT)?;
    let (what, octets) = (take_number(&mut said)?, take_number(&mut said)?);
    out.get(..octets as usize).filter(|_| what == 1)
}

/// Whether what was written, if something was, reads back to what the answer's message says.
fn reads_back(case: &Case, got: &[u8]) -> bool {
    let (Case::Packet(sheet, stream, answer, _), Some(packet)) = (case, written(got)) else {
        return true;
    };
    let (Ok(read), Some(meant)) = (packet::read(sheet, packet), message_of(sheet, *stream, &answer.answer)) else {
        return false;
    };
    writer::meaning(&read, packet) == writer::meaning(&meant, &sheet.users[usize::from(*stream)])
}

impl Asked for Case {
    type Tally = Tally;

    fn octets(&self) -> Octets {
        Case::octets(self)
    }

    fn expected(&self) -> Octets {
        self.answers().body()
    }

    fn judge(&self, tally: &mut Tally, got: Option<&[u8]>) -> Option<String> {
        let answers = self.answers();
        tally.note(self, &answers);
        let expected = answers.body();
        let got = match of_length(got, &expected) {
            Ok(got) => got,
            Err(wrong) => return Some(wrong),
        };
        let parts = |octets| <[u8]>::chunks(octets, self.part_size());
        let mut both = parts(got).zip(parts(&expected)).enumerate();
        if let Some((at, (proved, second))) = both.find(|(_, (proved, second))| proved != second) {
            let [second, proved] = [second, proved].map(hex);
            return Some(format!("  {}\n  second program: {second}\n  proved program: {proved}", asked(self, at)));
        }
        (!reads_back(self, got)).then(|| format!("  reads back as another message: {}", asked(self, 0)))
    }
}

#[cfg(test)]
mod tests {
    use super::*;
    use crate::asked::tests::every_octet_counts;
    use crate::bench::sheet_s;
    use crate::controller::{answers, sample};
    use crate::drafts::replaced;

    #[test]
    fn every_octet_of_an_answer_counts() {
        every_octet_counts(&sample::cases());
    }

    #[test]
    fn the_packet_that_differs_is_shown() {
        let case = Case::Events(sheet_s(), vec![vec![1], vec![2], vec![3]]);
        let wrong = case.judge(&mut Tally::default(), Some(&replaced(&case.expected(), 15, 2))).unwrap();
        assert!(wrong.starts_with("  packet 02 under numbers [1000, 1, "), "{wrong}");
        assert!(wrong.ends_with("program: 000000010000000000000000\n  proved program: 000000020000000000000000"));
    }

    #[test]
    fn another_message_read_back_is_seen() {
        let [granted, _, _, rejected, ended, ..] = answers::all(1);
        let case = |stream, answer| Case::Packet(sheet_s(), stream, answer, 24);
        let all = [case(0, granted), case(0, rejected), case(0, answers::all(2)[3]), case(0, ended), case(1, ended)];
        for (at, written) in all.iter().enumerate() {
            for (other, meant) in all.iter().enumerate() {
                assert_eq!(reads_back(meant, &written.expected()), at == other, "{at} {other}");
            }
            let spoilt = |place, octet| replaced(&written.expected(), SENT + place, octet);
            assert!(!reads_back(written, &spoilt(7, 0)) && !reads_back(written, &spoilt(0, 0x92)));
        }
    }
}
