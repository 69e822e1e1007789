//! What is asked about reception, questions 9 to 12, and the answers (crates/schedules/src/question.rt).

use super::octets;
use super::record::{call_of, Record, Records};
use super::routines::{Routines, Said, Step};
use super::schedules::{Outcome, Schedule};
use super::steps::{self, Attempt};
use super::table::Event;
use crate::sheet::Sheet;
use crate::wire::{numbers_octets, with_length};

/// As many attempts, steps, schedules and stores as the answer to one case has room for.
const ATTEMPTS: usize = 72;
pub const STEPS: usize = 34;
const SCHEDULES: usize = 14;
const STORES: usize = 34;

/// The steps start with the records, and so do each schedule and each store of an attempt that nobody need have worked
/// out, whose answer is that an event is discarded.
#[derive(Clone)]
pub enum Case {
    Attempts(Sheet, Vec<(Record, Event)>),
    Steps(Sheet, Records, Vec<Step>),
    Schedules(Sheet, Records, Vec<Schedule>),
    Stores(Sheet, Records, Vec<Attempt>),
}

/// What comes of each attempt, of each step with the records after it, of each schedule, and of each store like a step.
pub enum Answers {
    Attempts(Vec<Result<Attempt, u32>>),
    Steps(Vec<(Result<Said, u32>, Records)>),
    Schedules(Vec<Outcome>),
    Stores(Vec<(Result<Said, u32>, Records)>),
}

/// The cases that ask for all attempts under a sheet.
pub fn attempt_cases(sheet: &Sheet, attempts: &[(Record, Event)]) -> Vec<Case> {
    attempts.chunks(ATTEMPTS).map(|some| Case::Attempts(sheet.clone(), some.to_vec())).collect()
}

/// The cases that ask for all schedules under a sheet.
pub fn schedule_cases(sheet: &Sheet, records: Records, schedules: &[Schedule]) -> Vec<Case> {
    schedules.chunks(SCHEDULES).map(|some| Case::Schedules(sheet.clone(), records, some.to_vec())).collect()
}

/// The cases that ask for all stores under a sheet.
pub fn store_cases(sheet: &Sheet, records: Records, stores: &[Attempt]) -> Vec<Case> {
    stores.chunks(STORES).map(|some| Case::Stores(sheet.clone(), records, some.to_vec())).collect()
}

impl Case {
    pub fn sheet(&self) -> &Sheet {
        match self {
            Case::Attempts(sheet, _) | Case::Steps(sheet, ..) => sheet,
            Case::Schedules(sheet, ..) | Case::Stores(sheet, ..) => sheet,
        }
    }

    /// How many octets of the answer are for each attempt, step, schedule or store.
    pub fn part_size(&self) -> usize {
        match self {
            Case::Attempts(..) => octets::SAID,
            Case::Steps(..) | Case::Stores(..) => octets::STEP,
            Case::Schedules(..) => octets::SCHEDULE,
        }
    }

    /// The question, the records if there are some, and all parts.
    fn question(&self) -> (u8, Option<&Records>, Vec<u8>) {
        match self {
            Case::Attempts(_, attempts) => (9, None, attempts.iter().flat_map(octets::seen_event).collect()),
            Case::Steps(_, records, steps) => (10, Some(records), steps.iter().flat_map(octets::step).collect()),
            Case::Schedules(_, records, schedules) => {
                (11, Some(records), schedules.iter().flat_map(octets::schedule).collect())
            }
            Case::Stores(_, records, stores) => (12, Some(records), stores.iter().flat_map(octets::attempt).collect()),
        }
    }

    /// The case as octets: what is asked, a length, and that many octets.
    pub fn octets(&self) -> Vec<u8> {
        let (asked, records, parts) = self.question();
        let records = records.map_or(vec![], |records| octets::records(records).to_vec());
        [vec![asked], with_length([numbers_octets(self.sheet()), records, parts].concat())].concat()
    }

    /// The answer that document 01 gives.
    pub fn answers(&self) -> Answers {
        let call = call_of(self.sheet());
        match self {
            Case::Attempts(_, attempts) => {
                Answers::Attempts(attempts.iter().map(|(seen, event)| steps::work_out(call, *seen, *event)).collect())
            }
            Case::Steps(_, records, steps) => {
                let mut routines = Routines::new(call, *records);
                Answers::Steps(steps.iter().map(|step| (routines.step(*step), routines.records)).collect())
            }
            Case::Schedules(_, records, schedules) => {
                Answers::Schedules(schedules.iter().map(|schedule| schedule.outcome(call, *records)).collect())
            }
            Case::Stores(_, records, stores) => {
                let stored = |attempt: &Attempt| {
                    let mut after = *records;
                    let answer = steps::store(call, &mut after, *attempt);
                    (answer.map(|answer| Said::Store { stream: attempt.stream, answer }), after)
                };
                Answers::Stores(stores.iter().map(stored).collect())
            }
        }
    }
}

impl Answers {
    /// The answer as octets, without the length that stands before it.
    pub fn body(&self) -> Vec<u8> {
        match self {
            Answers::Attempts(attempts) => {
                attempts.iter().flat_map(|out| octets::said(out.map(Said::WorkOut))).collect()
            }
            Answers::Steps(said) | Answers::Stores(said) => said.iter().flat_map(octets::said_with).collect(),
            Answers::Schedules(outcomes) => outcomes.iter().flat_map(octets::outcome).collect(),
        }
    }
}

#[cfg(test)]
mod tests {
    use super::*;
    use crate::bench::sheet_s;
    use crate::reception::families::{start, NO_EVENT, P13};
    use crate::reception::record::{watched, ENDING, FREE, IDLE};
    use crate::reception::table::DISCARDED;

    const MADE: Attempt = Attempt { stream: 1, seen: watched(4), wanted: ENDING, answer: DISCARDED };

    #[test]
    fn questions() {
        let with_records = |front: [u8; 9], parts: &[u8]| {
            [&front[..], &numbers_octets(&sheet_s())[4..], &octets::records(&start(IDLE)), parts].concat()
        };
        let attempts = Case::Attempts(sheet_s(), vec![(FREE, NO_EVENT)]).octets();
        assert_eq!((attempts.len(), &attempts[..9]), (5 + 76 + 6, &[9, 0, 0, 0, 82, 0, 0, 3, 232][..]));
        assert_eq!(attempts[5 + 76..], [0, 0, 3, 7, 0, 0]);
        let steps = Case::Steps(sheet_s(), start(IDLE), vec![Step::Store { slot: 1 }]);
        assert_eq!(steps.octets(), with_records([10, 0, 0, 0, 98, 0, 0, 3, 232], &[3, 1, 0, 0, 0, 0]));
        let schedules = Case::Schedules(sheet_s(), start(IDLE), vec![P13]);
        assert_eq!(schedules.octets(), with_records([11, 0, 0, 0, 116, 0, 0, 3, 232], &octets::schedule(&P13)));
        let stores = Case::Stores(sheet_s(), start(IDLE), vec![MADE]);
        assert_eq!(stores.octets(), with_records([12, 0, 0, 0, 97, 0, 0, 3, 232], &[1, 2, 4, 3, 0]));
    }

    #[test]
    fn each_store_starts_with_the_records() {
        let body = Case::Stores(sheet_s(), start(IDLE), vec![MADE, MADE]).answers().body();
        let took = [0, 0, 1, 0, 0, 0, 0, 8, 0, 255, 255, 255, 0, 0];
        let after = [1, 0, 3, 0, 3, 0, 0, 0, 0, 0, 0, 0, 0, 0, 0, 0];
        assert_eq!(body, [&took[..], &after, &took, &after].concat());
    }

    #[test]
    fn an_answer_has_room() {
        let longest = |cases: Vec<Case>| cases.iter().map(|case| case.answers().body().len()).max();
        assert_eq!(longest(attempt_cases(&sheet_s(), &[(FREE, NO_EVENT); 100])), Some(1008));
        assert_eq!(longest(schedule_cases(&sheet_s(), start(IDLE), &[P13; 100])), Some(1008));
        assert_eq!(longest(store_cases(&sheet_s(), start(IDLE), &[MADE; 100])), Some(1020));
        assert_eq!(STEPS * octets::STEP, 1020);
    }
}
