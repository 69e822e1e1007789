//! Judges the answers about reception: by the second program's, by running the events that took one after another, and
//! by what document 01 gives for P13.

use super::families::{place_of_p13, P13_SAID};
use super::octets::SCHEDULE;
use super::serial;
use super::tally::Tally;
use super::wire::Case;
use crate::asked::{of_length, Asked};

/// P13, where a case has it and its answer is not the one of document 01.
fn not_p13(case: &Case, got: &[u8]) -> Option<usize> {
    let at = place_of_p13(case)?;
    (got[at * SCHEDULE..][..SCHEDULE] != P13_SAID).then_some(at)
}

/// What a case asks up to one of its parts.
fn asked(case: &Case, at: usize) -> String {
    let part = match case {
        Case::Attempts(_, attempts) => format!("{:?}", attempts[at]),
        Case::Steps(_, records, steps) => format!("{records:?} {:?}", &steps[..=at]),
        Case::Schedules(_, records, schedules) => format!("{records:?} {:?}", schedules[at]),
        Case::Stores(_, records, stores) => format!("{records:?} {:?}", stores[at]),
    };
    format!("{part} under numbers {:?} ssrcs {:?}", case.sheet().numbers, case.sheet().ssrcs)
}

impl Asked for Case {
    type Tally = Tally;

    fn octets(&self) -> Vec<u8> {
        Case::octets(self)
    }

    fn expected(&self) -> Vec<u8> {
        self.answers().body()
    }

    fn judge(&self, tally: &mut Tally, got: Option<&[u8]>) -> Option<String> {
        let answers = self.answers();
        tally.note(self, &answers);
        let expected = answers.body();
        let got = match of_length(got, &expected) {
            Ok(got) => got,
            Err(wrong) => return Some(wrong),
        };
        let parts = |octets| <[u8]>::chunks(octets, self.part_size());
        let differs = parts(got).zip(parts(&expected)).position(|(proved, second)| proved != second);
        let not_serial = serial::wrong_part(self, &answers, got);
        let faults = [("differs", differs), ("not serial", not_serial), ("not P13", not_p13(self, got))];
        let mut shown = String::new();
        for (fault, at) in faults {
            let Some(at) = at else {
                continue;
            };
            let [second, proved] = [&expected, got].map(|octets| parts(octets).nth(at));
            shown += &format!("  {fault}, part {at}: {}\n", asked(self, at));
            shown += &format!("  second program: {second:?}\n  proved program: {proved:?}\n");
        }
        (!shown.is_empty()).then_some(shown)
    }
}

#[cfg(test)]
mod tests {
    use super::*;
    use crate::asked::tests::every_octet_counts;
    use crate::bench::sheet_s;
    use crate::drafts::replaced;
    use crate::reception::families::{start, P13};
    use crate::reception::record::IDLE;
    use crate::reception::{octets, sample};

    #[test]
    fn every_octet_of_an_answer_counts() {
        every_octet_counts(&sample::cases());
    }

    #[test]
    fn each_fault_is_named() {
        let case = Case::Schedules(sheet_s(), start(IDLE), vec![P13]);
        let named = |got: &[u8]| {
            let shown = case.judge(&mut Tally::default(), Some(got)).unwrap();
            ["differs", "not serial", "not P13"].map(|fault| shown.contains(fault))
        };
        assert_eq!(named(&replaced(&P13_SAID, 0, 0)), [true, true, true]);
        let all_stale =
            [&[[10, 0, 0, 0, 0, 0, 0, 0, 0, 0, 0, 0, 0, 0]; 4].concat()[..], &octets::records(&start(IDLE))];
        assert_eq!(named(&all_stale.concat()), [true, false, true]);
    }

    #[test]
    fn p13_is_held_to_its_octets() {
        let case = Case::Schedules(sheet_s(), start(IDLE), vec![P13]);
        assert_eq!(not_p13(&case, &P13_SAID), None);
        for (at, octet) in P13_SAID.iter().enumerate() {
            assert_eq!(not_p13(&case, &replaced(&P13_SAID, at, !octet)), Some(0));
        }
    }
}
