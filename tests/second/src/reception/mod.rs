//! Reception: its rules from document 01, and what is asked about them: attempts, steps of two routines, whole
//! schedules of them, and stores of any attempt.

pub mod attempts;
pub mod chance;
mod compare;
pub mod families;
pub mod octets;
pub mod record;
pub mod routines;
pub mod sample;
pub mod schedules;
mod serial;
mod sorts;
pub mod steps;
pub mod stores;
pub mod table;
mod tally;
mod wanted;
mod wire;

use crate::random::Random;
pub use wire::Case;

/// Every attempt, schedule and store that is thought of, then so many rounds of steps and schedules by chance.
pub fn cases(seed: u64, rounds: usize) -> Vec<Case> {
    let random = &mut Random::new(seed);
    let mut cases = attempts::systematic(random);
    cases.extend(families::systematic());
    cases.extend(stores::systematic());
    for _ in 0..rounds {
        cases.push(chance::steps(random));
        cases.push(chance::schedules(random));
    }
    cases
}
