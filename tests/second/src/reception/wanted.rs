//! What the cases about reception have to turn out to be, and how often at least.

use super::record::Call;
use super::sorts::{How, ANSWERS, RECORD_FAULTS, SEAT_FAULTS};
use super::tally::{
    Tally, AGAIN, ATTEMPTS, BY_CHANCE, COUNTS, IN_FAMILIES, OF_ANY, OF_STORE, READS, STEPS, STORES, WORKED_OUT,
};
use crate::asked::Wanted;

/// Sheets with every attempt, of each count of seats and each limit.
const SHEETS: usize = 64;

/// Schedules of four events out of 11 in 70 orders, 1024870; and of three events in 15 orders, from five records under
/// S and six with limit 2.
const TWO_AGAINST_TWO: usize = 11 * 11 * 11 * 11 * 70;
const TWO_AGAINST_ONE: usize = (5 + 6) * 11 * 11 * 11 * 15;

/// The least that there has to be by chance, and of each sort.
const LEAST_ROWS: usize = 20_000;
const LEAST_TOOK: usize = 40_000;
const LEAST_STALE: usize = 10_000;
const LEAST_NINES: usize = 10_000;
const LEAST_EACH: usize = 250;

/// The least that there has to be of each fault of each record in a store.
const LEAST_STORES: usize = 25;

fn choose(n: usize, k: usize) -> usize {
    (0..k).fold(1, |product, i| product * (n - i) / (i + 1))
}

/// How many attempts there are in a call: on each stream three records without receivers and those with some, up to the
/// limit; with a request and an end by each seat and five events more.
pub fn attempts_in(call: Call) -> usize {
    let (seats, limit) = (usize::from(call.seats), call.limit as usize);
    let with_receivers: usize = (1..=limit.min(seats - 1)).map(|k| choose(seats - 1, k)).sum();
    seats * (3 + with_receivers) * (2 * seats + 5)
}

/// How each thing has to turn out, and how often at least.
fn of_each() -> Vec<(&'static str, How, usize)> {
    let mut sorts: Vec<(&str, How, usize)> = ANSWERS.map(|answer| (ATTEMPTS, How::Answered(answer), 1)).to_vec();
    for what in [IN_FAMILIES, BY_CHANCE, STORES] {
        sorts.extend(ANSWERS.map(|answer| (what, How::Answered(answer), LEAST_EACH)));
    }
    for what in [ATTEMPTS, BY_CHANCE, STORES, READS, WORKED_OUT, COUNTS, OF_ANY] {
        sorts.extend([9, 12].map(|refusal| (what, How::Refused(refusal), LEAST_EACH)));
    }
    sorts.extend([IN_FAMILIES, BY_CHANCE, STORES, AGAIN, OF_ANY].map(|what| (what, How::Refused(10), LEAST_EACH)));
    sorts.extend([READS, WORKED_OUT, COUNTS].map(|what| (what, How::Done, LEAST_EACH)));
    sorts.extend(SEAT_FAULTS.map(|fault| (ATTEMPTS, How::OnlyFor(fault), LEAST_EACH)));
    sorts.extend(RECORD_FAULTS.map(|fault| (ATTEMPTS, How::OnlyFor(fault), LEAST_EACH)));
    sorts.push((OF_ANY, How::Answered(ANSWERS[14]), LEAST_EACH));
    for which in OF_STORE {
        sorts.extend(RECORD_FAULTS.map(|fault| (OF_ANY, How::OnlyForRecord(which, fault), LEAST_STORES)));
    }
    sorts
}

/// All that has to be there.
pub fn all(tally: &Tally) -> Vec<Wanted> {
    let wanted = |met, what: &str, least| (met, what.to_string(), least);
    let mut all = vec![
        wanted(tally.whole_sheets(), "sheets with every attempt", SHEETS),
        wanted(tally.two_against_two(), "schedules of two events against two", TWO_AGAINST_TWO),
        wanted(tally.two_against_one(), "schedules of two events against one", TWO_AGAINST_ONE),
        wanted(tally.p13, "P13", 1),
        wanted(tally.rows, "rows of steps", LEAST_ROWS),
        wanted(tally.answered(&STEPS), "stores among steps that took", LEAST_TOOK),
        wanted(tally.answered(&[AGAIN]), "stores again among steps that took", LEAST_EACH),
        wanted(tally.refused(&STEPS, 10), "stores among steps that were stale", LEAST_STALE),
        wanted(tally.refused(&STEPS, 9), "steps refused with 9", LEAST_NINES),
    ];
    let met = |what, how| tally.sum(&[what], |other| *other == how);
    all.extend(of_each().into_iter().map(|(what, how, least)| (met(what, how), format!("{what}, {how}"), least)));
    all
}

#[cfg(test)]
mod tests {
    use super::*;

    #[test]
    fn how_many_attempts_there_are() {
        let attempts = |seats, limit| attempts_in(Call { seats, limit });
        assert_eq!((attempts(1, 1), attempts(1, 8)), (3 * 7, 3 * 7));
        assert_eq!((attempts(3, 1), attempts(3, 2), attempts(3, 8)), (3 * 5 * 11, 3 * 6 * 11, 3 * 6 * 11));
        assert_eq!((attempts(8, 1), attempts(8, 8)), (8 * 10 * 21, 8 * 130 * 21));
    }

    #[test]
    fn nothing_is_not_enough() {
        let wanted = all(&Tally::default());
        assert!(wanted.iter().all(|(met, what, least)| met < least && !what.is_empty()));
        assert_eq!(wanted.len(), 9 + 4 * 15 + 7 * 2 + 5 + 3 + 9 + 1 + 3 * 7);
    }
}
