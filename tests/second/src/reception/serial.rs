//! Runs one after another, by the table alone, exactly those events whose stores the proved program said took, and
//! holds its answers and its records to that.

use super::octets::{self, SAID, SCHEDULE, STEP};
use super::record::Records;
use super::routines::{Said, Step, AT_FIRST};
use super::schedules::Outcome;
use super::table::{table, Event};
use super::wire::{Answers, Case};
use crate::sheet::SEATS;

/// The next of the events: what its store has to say. None where it names a seat above the eight.
fn run(limit: u32, records: &mut Records, event: Event) -> Option<Said> {
    if event.what.by().is_some_and(|by| usize::from(by) >= SEATS) {
        return None;
    }
    let record = records.get_mut(usize::from(event.stream))?;
    let (wanted, answer) = table(limit, *record, event);
    *record = wanted;
    Some(Said::Store { stream: event.stream, answer })
}

/// Whether the proved program said of a step that it is not refused.
fn took(said: &[u8]) -> bool {
    said[0] == 0
}

/// Whether a store that took says what its event gives; one that is refused runs no event.
fn is_run(limit: u32, records: &mut Records, event: Event, said: &[u8]) -> bool {
    !took(said) || run(limit, records, event).is_some_and(|expected| said == octets::said(Ok(expected)))
}

/// The first step whose answer or records do not come from the events that took.
fn wrong_step(limit: u32, start: &Records, steps: &[Step], got: &[u8]) -> Option<usize> {
    let mut records = *start;
    let mut worked_out = [AT_FIRST; 2];
    let mut is_right = |(step, said): (&Step, &[u8])| {
        let (said, after) = said.split_at(SAID);
        let is_answer = match step {
            Step::WorkOut { slot, event } if took(said) => {
                worked_out[*slot] = *event;
                true
            }
            Step::Store { slot } => is_run(limit, &mut records, worked_out[*slot], said),
            _ => true,
        };
        is_answer && after == octets::records(&records)
    };
    steps.iter().zip(got.chunks(STEP)).position(|step| !is_right(step))
}

/// Whether a schedule's answers and records come from the events that took.
fn is_right(limit: u32, start: &Records, outcome: &Outcome, got: &[u8]) -> bool {
    let mut records = *start;
    let (stores, after) = got.split_at(4 * SAID);
    let mut is_run = |(place, event)| is_run(limit, &mut records, event, &stores[place * SAID..][..SAID]);
    outcome.stored.into_iter().all(&mut is_run) && after == octets::records(&records)
}

/// The first step or schedule that is not so. Which event a schedule's store stores is taken from the second program.
pub fn wrong_part(case: &Case, answers: &Answers, got: &[u8]) -> Option<usize> {
    let limit = case.sheet().number("limit");
    match (case, answers) {
        (Case::Steps(_, start, steps), _) => wrong_step(limit, start, steps, got),
        (Case::Schedules(_, start, _), Answers::Schedules(outcomes)) => {
            let mut schedules = outcomes.iter().zip(got.chunks(SCHEDULE));
            schedules.position(|(outcome, got)| !is_right(limit, start, outcome, got))
        }
        _ => None,
    }
}

#[cfg(test)]
mod tests {
    use super::*;
    use crate::bench::sheet_s;
    use crate::reception::families::{start, NO_EVENT, P13, P13_SAID};
    use crate::reception::record::{ENDING, IDLE};
    use crate::reception::sample::up_to_the_stale_store;
    use crate::reception::schedules::Schedule;
    use crate::reception::table::{Done, What};

    const GRANT: [u8; SAID] = [0, 0, 0, 0, 0, 0, 0, 1, 2, 1, 255, 255, 10, 4];
    const STALE: [u8; SAID] = [10, 0, 0, 0, 0, 0, 0, 0, 0, 0, 0, 0, 0, 0];

    /// The octets with others in one place.
    fn with(octets: &[u8], at: usize, others: &[u8]) -> Vec<u8> {
        [&octets[..at], others, &octets[at + others.len()..]].concat()
    }

    fn wrong(case: &Case, got: &[u8]) -> Option<usize> {
        wrong_part(case, &case.answers(), got)
    }

    #[test]
    fn p13_one_after_another() {
        let mut records = start(IDLE);
        let done = [P13.events[2], P13.events[1], P13.events[3]].map(|event| match run(1, &mut records, event) {
            Some(Said::Store { stream: 0, answer }) => answer.done,
            said => panic!("{said:?} is not of stream 0"),
        });
        assert_eq!((done, records), ([Done::EndRequest, Done::Reject, Done::Discarded], start(ENDING)));
    }

    #[test]
    fn no_seat_above_all_records() {
        let [request, end] = [What::Request { by: 8 }, What::End { by: 255 }];
        for (stream, what) in [(0, request), (0, end), (8, What::Open)] {
            assert_eq!(run(1, &mut start(IDLE), Event { stream, what }), None);
        }
    }

    #[test]
    fn steps_that_are_wrong() {
        let case = Case::Steps(sheet_s(), start(IDLE), up_to_the_stale_store());
        let good = case.answers().body();
        assert_eq!(wrong(&case, &good), None);
        let stored_stale = with(&good, 5 * STEP, &GRANT);
        assert_eq!(wrong(&case, &stored_stale), Some(5));
        assert_eq!(wrong(&case, &with(&stored_stale, 5 * STEP + SAID, &[2, 2])), Some(5));
        let stored_nothing = with(&good, 4 * STEP + SAID, &[1, 0]);
        assert_eq!(wrong(&case, &stored_nothing), Some(4));
        let stored_by_working_out = with(&good, 3 * STEP + SAID, &[3, 0]);
        assert_eq!(wrong(&case, &stored_by_working_out), Some(3));
        let stored_elsewhere = with(&good, 4 * STEP + SAID + 14, &[1, 0]);
        assert_eq!(wrong(&case, &stored_elsewhere), Some(4));
        let other_timers = with(&good, 4 * STEP + SAID - 1, &[8]);
        assert_eq!(wrong(&case, &other_timers), Some(4));
        let all_stale = with(&with(&good, 4 * STEP, &STALE), 4 * STEP + SAID, &[1, 0]);
        assert_eq!(wrong(&case, &with(&all_stale, 5 * STEP + SAID, &[1, 0])), None);
    }

    #[test]
    fn schedules_that_are_wrong() {
        let case = Case::Schedules(sheet_s(), start(IDLE), vec![P13, P13]);
        let with_second = |second: &[u8]| [&P13_SAID[..], second].concat();
        assert_eq!(wrong(&case, &with_second(&P13_SAID)), None);
        let granted = with(&P13_SAID, 0, &GRANT);
        assert_eq!(wrong(&case, &with_second(&granted)), Some(1));
        assert_eq!(wrong(&case, &with_second(&with(&granted, 4 * SAID, &[2, 2]))), Some(1));
        assert_eq!(wrong(&case, &with_second(&with(&P13_SAID, 4 * SAID, &[1, 0]))), Some(1));
        let all_stale = [&[STALE; 4].concat()[..], &octets::records(&start(IDLE))].concat();
        assert_eq!(wrong(&case, &with_second(&all_stale)), None);
    }

    #[test]
    fn an_event_stored_again_runs_again() {
        let [request, _, t11, _] = P13.events;
        let schedule = Schedule { events: [t11, t11, request, NO_EVENT], order: 0b1111_0000 };
        let case = Case::Schedules(sheet_s(), start(IDLE), vec![schedule]);
        let good = case.answers().body();
        assert_eq!(good[3 * SAID..4 * SAID], [0, 0, 0, 0, 0, 0, 0, 2, 2, 0, 0, 1, 0, 0]);
        assert_eq!(wrong(&case, &good), None);
        assert_eq!(wrong(&case, &with(&good, 3 * SAID, &GRANT)), Some(0));
    }
}
