//! What is asked of the proved program, and the comparison of its answers with the second program's.

use crate::wire;
use std::io::{self, Read, Write};

const SHOWN: usize = 5;

/// A case that the proved program is asked.
pub trait Asked {
    type Tally: Tally;

    /// The case as the program reads it.
    fn octets(&self) -> Vec<u8>;

    /// The answer that document 01 gives, without the length that stands before it.
    fn expected(&self) -> Vec<u8>;

    /// Notes what the case turned out to be, and says what is wrong with the program's answer, if anything is.
    fn judge(&self, tally: &mut Self::Tally, got: Option<&[u8]>) -> Option<String>;
}

/// Counts what the cases turned out to be.
pub trait Tally: Default {
    /// Prints the counts; true where there is enough of everything.
    fn print(&self) -> bool;
}

/// How many there are, of what, and the least that there have to be.
pub type Wanted = (usize, String, usize);

/// Prints what there is too little of; true where that is nothing.
pub fn is_enough(wanted: Vec<Wanted>) -> bool {
    let missing: Vec<Wanted> = wanted.into_iter().filter(|(met, _, least)| met < least).collect();
    for (met, sort, least) in &missing {
        println!("too few: {sort}: {met}, and not {least}");
    }
    missing.is_empty()
}

/// The program's answer, where it has as many octets as document 01's; else what is wrong with it.
pub fn of_length<'a>(got: Option<&'a [u8]>, expected: &[u8]) -> Result<&'a [u8], String> {
    got.filter(|got| got.len() == expected.len())
        .ok_or_else(|| format!("  octets in the answer: {:?}, and not {}", got.map(<[u8]>::len), expected.len()))
}

/// Writes cases as the program reads them: how many there are, and each.
pub fn write_cases(out: &mut impl Write, mut cases: impl ExactSizeIterator<Item = Vec<u8>>) -> io::Result<()> {
    let count = u32::try_from(cases.len()).expect("a count of four octets");
    out.write_all(&count.to_be_bytes())?;
    cases.try_for_each(|case| out.write_all(&case))
}

/// The answers to cases as the program writes them.
pub fn answer_octets<C: Asked>(cases: &[C]) -> Vec<u8> {
    cases.iter().flat_map(|case| wire::with_length(case.expected())).collect()
}

/// The next answer, behind its length; none where not all of it is there.
fn next_answer(answers: &mut impl Read) -> io::Result<Option<Vec<u8>>> {
    let mut part = |length| {
        let mut octets = vec![];
        answers.take(length).read_to_end(&mut octets)?;
        Ok(Some(octets).filter(|octets| octets.len() as u64 == length))
    };
    match part(4)?.and_then(|octets| wire::take_number(&mut &octets[..])) {
        Some(length) => part(u64::from(length)),
        None => Ok(None),
    }
}

/// Compares the answers to all cases, and prints the counts; true where they agree and the cases show enough.
pub fn compare<C: Asked>(cases: &[C], mut answers: impl Read) -> io::Result<bool> {
    let mut tally = C::Tally::default();
    let mut different = 0;
    for (at, case) in cases.iter().enumerate() {
        let got = next_answer(&mut answers)?;
        let Some(wrong) = case.judge(&mut tally, got.as_deref()) else {
            continue;
        };
        different += 1;
        if different <= SHOWN {
            println!("case {} differs\n{wrong}", at + 1);
        }
    }
    let enough = tally.print();
    let behind = io::copy(&mut answers, &mut io::sink())?;
    if behind > 0 {
        println!("{behind} octets follow the last answer");
    }
    println!("{} cases compared; {different} differ", cases.len());
    Ok(different == 0 && enough && behind == 0)
}

#[cfg(test)]
pub mod tests {
    use super::*;
    use crate::drafts::replaced;

    fn differs(case: &impl Asked, got: Option<&[u8]>) -> bool {
        case.judge(&mut Default::default(), got).is_some()
    }

    /// Every octet of each answer counts, and so does its length.
    pub fn every_octet_counts<C: Asked>(cases: &[C]) {
        for case in cases {
            let body = case.expected();
            assert!(!differs(case, Some(&body)));
            for (at, octet) in body.iter().enumerate() {
                assert!(differs(case, Some(&replaced(&body, at, !octet))), "octet {at} of {:?}", case.octets());
            }
            assert!(differs(case, Some(&body[1..])) && differs(case, Some(&[&body[..], &[0]].concat())));
            assert!(differs(case, None));
        }
    }

    /// A case whose answer is one octet.
    struct Octet(u8);

    #[derive(Default)]
    struct Seen(usize);

    impl Asked for Octet {
        type Tally = Seen;

        fn octets(&self) -> Vec<u8> {
            vec![1, 0, 0, 0, 0]
        }

        fn expected(&self) -> Vec<u8> {
            vec![self.0]
        }

        fn judge(&self, tally: &mut Seen, got: Option<&[u8]>) -> Option<String> {
            tally.0 += 1;
            (got != Some(&[self.0])).then(String::new)
        }
    }

    impl Tally for Seen {
        fn print(&self) -> bool {
            is_enough(vec![(self.0, "octets".to_string(), 2)])
        }
    }

    fn compared(answers: &[u8], cases: usize) -> bool {
        compare(&[Octet(7), Octet(8), Octet(9)][..cases], answers).unwrap()
    }

    #[test]
    fn cases_behind_their_count() {
        let mut written = vec![];
        write_cases(&mut written, [Octet(7), Octet(8)].iter().map(Asked::octets)).unwrap();
        assert_eq!(written, [0, 0, 0, 2, 1, 0, 0, 0, 0, 1, 0, 0, 0, 0]);
    }

    #[test]
    fn all_answers_and_no_more() {
        let answers = answer_octets(&[Octet(7), Octet(8)]);
        assert_eq!(answers, [0, 0, 0, 1, 7, 0, 0, 0, 1, 8]);
        assert!(compared(&answers, 2));
        assert!(!compared(&answers, 1) && !compared(&answers, 3));
        assert!(!compared(&answers[..9], 2) && !compared(&[&answers[..], &[0]].concat(), 2));
        for at in 0..answers.len() {
            let mut spoilt = answers.clone();
            spoilt[at] ^= 1;
            assert!(!compared(&spoilt, 2), "octet {at}");
        }
    }

    #[test]
    fn too_few_are_not_enough() {
        assert!(!compared(&answer_octets(&[Octet(7)]), 1));
    }
}
