//! Counts what the cases about reception turned out to be.

use super::families::{self, NO_EVENT};
use super::record::{call_of, Call, Record, Records, IDLE};
use super::routines::{Said, Step};
use super::schedules::{Outcome, Schedule};
use super::sorts::{faults, how_answered, how_said, record_faults, How};
use super::steps::Attempt;
use super::table::{Answer, Event};
use super::wanted;
use super::wire::{Answers, Case};
use crate::asked::{self, is_enough};
use crate::sheet::{Sheet, KEYS, SEATS};
use std::collections::{BTreeMap, HashMap, HashSet};

/// What is counted.
pub const ATTEMPTS: &str = "attempts";
pub const IN_FAMILIES: &str = "stores in families";
pub const BY_CHANCE: &str = "stores in schedules by chance";
pub const STORES: &str = "stores among steps";
pub const AGAIN: &str = "stores again among steps";
pub const READS: &str = "reads among steps";
pub const WORKED_OUT: &str = "workings-out among steps";
pub const COUNTS: &str = "counts among steps";
pub const OF_ANY: &str = "stores of any attempt";
pub const STEPS: [&str; 5] = [READS, WORKED_OUT, STORES, AGAIN, COUNTS];

/// The records that have to be legal for a store.
pub const OF_STORE: [&str; 3] = ["the stream's own record", "the record seen", "the record wanted"];

/// The numbers and SSRCs of a sheet.
type Numbers = ([u32; KEYS.len()], [u32; SEATS]);

#[derive(Default)]
pub struct Tally {
    counts: BTreeMap<(&'static str, How), usize>,
    /// which attempts were not refused under a sheet
    attempts: HashMap<Numbers, (Call, HashSet<(Record, Event)>)>,
    /// which schedules there were, under S with a limit and from a record of stream 0
    families: HashMap<(u32, Record), HashSet<Schedule>>,
    pub p13: usize,
    /// how many times steps were made in a row
    pub rows: usize,
}

impl Tally {
    fn count(&mut self, what: &'static str, how: How) {
        *self.counts.entry((what, how)).or_default() += 1;
    }

    pub fn note(&mut self, case: &Case, answers: &Answers) {
        match (case, answers) {
            (Case::Attempts(sheet, attempts), Answers::Attempts(said)) => {
                for ((seen, event), said) in attempts.iter().zip(said) {
                    self.note_attempt(sheet, *seen, *event, said.map(|attempt| attempt.answer));
                }
            }
            (Case::Steps(_, _, steps), Answers::Steps(said)) => {
                self.rows += 1;
                self.note_steps(steps, said);
            }
            (Case::Schedules(sheet, records, schedules), Answers::Schedules(outcomes)) => {
                self.p13 += usize::from(families::place_of_p13(case).is_some());
                self.note_schedules(sheet, records, schedules, outcomes);
            }
            (Case::Stores(sheet, records, stores), Answers::Stores(said)) => {
                for (attempt, (said, _)) in stores.iter().zip(said) {
                    self.note_store(sheet, records, attempt, *said);
                }
            }
            _ => unreachable!("an answer to another question"),
        }
    }

    fn note_attempt(&mut self, sheet: &Sheet, seen: Record, event: Event, said: Result<Answer, u32>) {
        self.count(ATTEMPTS, how_answered(said));
        let Ok(call) = call_of(sheet) else {
            return;
        };
        match said {
            Ok(_) => {
                let first = (call, HashSet::new());
                let (_, attempts) = self.attempts.entry((sheet.numbers, sheet.ssrcs)).or_insert(first);
                attempts.insert((seen, event));
            }
            Err(9) => {
                if let [fault] = faults(call, seen, event)[..] {
                    self.count(ATTEMPTS, How::OnlyFor(fault));
                }
            }
            Err(_) => (),
        }
    }

    fn note_steps(&mut self, steps: &[Step], said: &[(Result<Said, u32>, Records)]) {
        let mut is_stored = [false; 2];
        for (step, (said, _)) in steps.iter().zip(said) {
            let what = match step {
                Step::Read { .. } => READS,
                Step::WorkOut { .. } => WORKED_OUT,
                Step::Store { slot } if is_stored[*slot] => AGAIN,
                Step::Store { .. } => STORES,
                Step::Count { .. } => COUNTS,
            };
            match step {
                Step::WorkOut { slot, .. } => is_stored[*slot] &= said.is_err(),
                Step::Store { slot } => is_stored[*slot] = true,
                _ => (),
            }
            self.count(what, how_said(*said));
        }
    }

    fn note_schedules(&mut self, sheet: &Sheet, records: &Records, schedules: &[Schedule], outcomes: &[Outcome]) {
        let limit = sheet.number("limit");
        let in_family = *records == families::start(records[0]) && *sheet == families::with_limit(limit);
        let what = if in_family { IN_FAMILIES } else { BY_CHANCE };
        for outcome in outcomes {
            outcome.stores.iter().for_each(|said| self.count(what, how_said(*said)));
        }
        if in_family {
            self.families.entry((limit, records[0])).or_default().extend(schedules);
        }
    }

    fn note_store(&mut self, sheet: &Sheet, records: &Records, attempt: &Attempt, said: Result<Said, u32>) {
        self.count(OF_ANY, how_said(said));
        let Ok(call) = call_of(sheet) else {
            return;
        };
        if said != Err(9) || !call.has_seat(attempt.stream) {
            return;
        }
        let of_store = [records[usize::from(attempt.stream)], attempt.seen, attempt.wanted];
        let faults = OF_STORE.into_iter().zip(of_store).flat_map(|(which, record)| {
            record_faults(call, attempt.stream, record).into_iter().map(move |fault| (which, fault))
        });
        if let [(which, fault)] = faults.collect::<Vec<_>>()[..] {
            self.count(OF_ANY, How::OnlyForRecord(which, fault));
        }
    }

    pub fn two_against_two(&self) -> usize {
        let from_idle = self.families.get(&(1, IDLE)).into_iter().flatten();
        from_idle.filter(|schedule| schedule.events[3] != NO_EVENT).count()
    }

    pub fn two_against_one(&self) -> usize {
        self.families.values().flatten().filter(|schedule| schedule.events[3] == NO_EVENT).count()
    }

    /// Under how many sheets, of different seats or limits, there was every attempt.
    pub fn whole_sheets(&self) -> usize {
        let is_whole = |(call, attempts): &&(Call, HashSet<_>)| attempts.len() == wanted::attempts_in(*call);
        self.attempts.values().filter(is_whole).map(|(call, _)| *call).collect::<HashSet<Call>>().len()
    }

    /// How many of some things turned out so.
    pub fn sum(&self, whats: &[&str], is: impl Fn(&How) -> bool) -> usize {
        self.counts.iter().filter(|((what, how), _)| whats.contains(what) && is(how)).map(|(_, n)| n).sum()
    }

    pub fn answered(&self, whats: &[&str]) -> usize {
        self.sum(whats, |how| matches!(how, How::Answered(_)))
    }

    pub fn refused(&self, whats: &[&str], refusal: u32) -> usize {
        self.sum(whats, |how| *how == How::Refused(refusal))
    }
}

impl asked::Tally for Tally {
    fn print(&self) -> bool {
        for ((what, how), count) in &self.counts {
            println!("{count:8} {what}, {how}");
        }
        let (attempts, sheets) = (self.answered(&[ATTEMPTS]), self.whole_sheets());
        let refused = self.sum(&[ATTEMPTS], |how| matches!(how, How::Refused(_)));
        let (two, one, p13) = (self.two_against_two(), self.two_against_one(), self.p13);
        let (rows, steps) = (self.rows, self.sum(&STEPS, |_| true));
        let (took, again) = (self.answered(&STEPS), self.answered(&[AGAIN]));
        let (stale, nines) = (self.refused(&STEPS, 10), self.refused(&STEPS, 9));
        let of_any = self.sum(&[OF_ANY], |how| !matches!(how, How::OnlyForRecord(..)));
        println!("{attempts} attempts worked out, every one under {sheets} sheets; {refused} refused");
        println!("{two} schedules of two events against two, P13 among them: {p13}; {one} of two against one");
        println!("{rows} rows of steps, {steps} steps: {took} stores took, {again} of them again, {stale} were stale");
        println!("{nines} of those steps were refused with 9; {of_any} stores of any attempt");
        is_enough(wanted::all(self))
    }
}

#[cfg(test)]
mod tests {
    use super::*;
    use crate::asked::Tally as _;
    use crate::reception::{attempts, sample};

    fn noted(cases: &[Case]) -> Tally {
        let mut tally = Tally::default();
        cases.iter().for_each(|case| tally.note(case, &case.answers()));
        tally
    }

    #[test]
    fn one_attempt_less_is_seen() {
        let sheet = families::with_limit(2);
        let mut all = attempts::all(&sheet);
        assert_eq!(noted(&[Case::Attempts(sheet.clone(), all.clone())]).whole_sheets(), 1);
        all[7] = all[8];
        assert_eq!(noted(&[Case::Attempts(sheet, all)]).whole_sheets(), 0);
    }

    #[test]
    fn a_schedule_counts_once() {
        let in_turn = Schedule { order: 0b1111_0000, ..families::P13 };
        let one_more = Case::Schedules(families::with_limit(1), families::start(IDLE), vec![in_turn]);
        let tally = noted(&[sample::cases(), sample::cases(), vec![one_more]].concat());
        assert_eq!((tally.two_against_two(), tally.two_against_one(), tally.p13), (2, 1, 2));
        assert!(!tally.print());
    }

    #[test]
    fn the_sample_by_its_counts() {
        let tally = noted(&sample::cases());
        assert_eq!((tally.refused(&[ATTEMPTS], 9), tally.refused(&[ATTEMPTS], 12)), (8, 8));
        assert_eq!((tally.answered(&[STORES]), tally.refused(&[STORES], 10)), (2, 2));
        assert_eq!((tally.answered(&[AGAIN]), tally.refused(&[AGAIN], 10)), (1, 1));
        assert_eq!((tally.answered(&[OF_ANY]), tally.refused(&[OF_ANY], 10), tally.refused(&[OF_ANY], 9)), (1, 1, 3));
        let only_for = |which, fault| tally.sum(&[OF_ANY], |how| *how == How::OnlyForRecord(which, fault));
        assert_eq!(only_for("the record seen", "Watched with its own bit"), 1);
        assert_eq!(only_for("the record wanted", "Watched with more bits than the limit"), 2);
    }
}
