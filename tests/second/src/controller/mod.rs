//! The controller: its rules from document 01, and what is asked about them: which events packets make, and which
//! packets answers send.

pub mod answered;
pub mod answers;
mod compare;
pub mod events;
pub mod offered;
pub mod sample;
pub mod scene;
pub mod sending;
mod sheets;
mod sorts;
mod tally;
mod wanted;
mod wire;

use crate::random::Random;
pub use wire::Case;

/// Every packet offered and every answer to send that is thought of, then so many rounds of both by chance.
pub fn cases(seed: u64, rounds: usize) -> Vec<Case> {
    let random = &mut Random::new(seed);
    let mut cases = offered::systematic(random);
    cases.extend(answered::systematic(random));
    for _ in 0..rounds {
        cases.push(offered::some(random));
        cases.push(answered::one(random));
    }
    cases
}

#[cfg(test)]
mod tests {
    use super::*;
    use crate::asked::{self, Asked};
    use crate::wire::with_length;

    /// The most octets that the program takes in a case, and gives in an answer.
    const MOST_ASKED: usize = 65_536;
    const MOST_ANSWERED: usize = 1020;

    #[test]
    fn the_made_cases_have_room_and_show_enough() {
        let cases = cases(2, 0);
        assert!(cases.iter().all(|case| case.octets().len() - 5 <= MOST_ASKED));
        let answers: Vec<Vec<u8>> = cases.iter().map(Asked::expected).collect();
        assert!(answers.iter().all(|answer| (1..=MOST_ANSWERED).contains(&answer.len())));
        let answers: Vec<u8> = answers.into_iter().flat_map(with_length).collect();
        assert!(asked::compare(&cases, &answers[..]).unwrap());
    }
}
