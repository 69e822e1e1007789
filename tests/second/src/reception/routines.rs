//! Two routines that share the records, and their steps in any order.

use super::record::{Judged, Record, Records, FREE};
use super::steps::{self, Attempt};
use super::table::{Answer, Event, What, DISCARDED};

/// A step of the routine that has the slot.
#[derive(Clone, Copy, PartialEq, Eq, Debug)]
pub enum Step {
    Read { slot: usize, stream: u8 },
    WorkOut { slot: usize, event: Event },
    Store { slot: usize },
    Count { slot: usize, stream: u8 },
}

/// What a step says that is not refused.
#[derive(Clone, Copy, PartialEq, Eq, Debug)]
pub enum Said {
    Read { stream: u8, record: Record },
    WorkOut(Attempt),
    Store { stream: u8, answer: Answer },
    Count { stream: u8, count: u32 },
}

/// The record that a routine read last, and its last attempt with the event that it was worked out for.
#[derive(Clone, Copy)]
struct Slot {
    record: Record,
    attempt: Attempt,
    event: Event,
}

/// What a slot has at first: an attempt as if this event had been worked out from Free.
pub const AT_FIRST: Event = Event { stream: 0, what: What::T11Expired };

const SLOT: Slot =
    Slot { record: FREE, attempt: Attempt { stream: 0, seen: FREE, wanted: FREE, answer: DISCARDED }, event: AT_FIRST };

pub struct Routines {
    call: Judged,
    pub records: Records,
    slots: [Slot; 2],
}

impl Routines {
    pub fn new(call: Judged, records: Records) -> Routines {
        Routines { call, records, slots: [SLOT; 2] }
    }

    /// The event that a store would store.
    pub fn event_in(&self, slot: usize) -> Event {
        self.slots[slot].event
    }

    /// The record that a routine would work out from.
    pub fn record_in(&self, slot: usize) -> Record {
        self.slots[slot].record
    }

    /// The attempt that a store would store.
    pub fn attempt_in(&self, slot: usize) -> Attempt {
        self.slots[slot].attempt
    }

    fn read(&mut self, slot: usize, stream: u8) -> Result<Record, u32> {
        let record = steps::read(self.call, &self.records, stream)?;
        self.slots[slot].record = record;
        Ok(record)
    }

    fn work_out(&mut self, slot: usize, event: Event) -> Result<Attempt, u32> {
        let slot = &mut self.slots[slot];
        let attempt = steps::work_out(self.call, slot.record, event)?;
        *slot = Slot { attempt, event, ..*slot };
        Ok(attempt)
    }

    fn store(&mut self, slot: usize) -> Result<Answer, u32> {
        steps::store(self.call, &mut self.records, self.slots[slot].attempt)
    }

    pub fn step(&mut self, step: Step) -> Result<Said, u32> {
        Ok(match step {
            Step::Read { slot, stream } => Said::Read { stream, record: self.read(slot, stream)? },
            Step::WorkOut { slot, event } => Said::WorkOut(self.work_out(slot, event)?),
            Step::Store { slot } => Said::Store { stream: self.slots[slot].attempt.stream, answer: self.store(slot)? },
            Step::Count { stream, .. } => {
                Said::Count { stream, count: steps::count(self.call, &self.records, stream)? }
            }
        })
    }
}

#[cfg(test)]
mod tests {
    use super::*;
    use crate::reception::families::start;
    use crate::reception::record::{Call, ENDING, IDLE};
    use crate::reception::table::{table, Done};
    use crate::sheet::SEATS;

    const S: Judged = Ok(Call { seats: 3, limit: 1 });
    const T11: Event = Event { stream: 0, what: What::T11Expired };
    const BY_NOBODY: Event = Event { stream: 0, what: What::Request { by: 3 } };

    #[test]
    fn a_slot_keeps_what_was_not_refused() {
        let mut routines = Routines::new(S, start(IDLE));
        assert_eq!(routines.step(Step::Store { slot: 1 }), Err(10));
        let read = routines.step(Step::Read { slot: 0, stream: 0 });
        assert_eq!(read, Ok(Said::Read { stream: 0, record: IDLE }));
        assert_eq!(routines.step(Step::Read { slot: 0, stream: 3 }), Err(9));
        let worked_out = routines.step(Step::WorkOut { slot: 0, event: T11 });
        assert!(matches!(worked_out, Ok(Said::WorkOut(Attempt { stream: 0, seen: IDLE, wanted: ENDING, .. }))));
        assert_eq!(routines.step(Step::WorkOut { slot: 0, event: BY_NOBODY }), Err(9));
        assert_eq!(routines.event_in(0), T11);
        let stored = routines.step(Step::Store { slot: 0 });
        assert!(matches!(stored, Ok(Said::Store { stream: 0, answer: Answer { done: Done::EndRequest, .. } })));
        assert_eq!(routines.step(Step::Store { slot: 0 }), Err(10));
        assert_eq!(routines.step(Step::Count { slot: 0, stream: 1 }), Ok(Said::Count { stream: 1, count: 1 }));
        assert_eq!(routines.records, start(ENDING));
    }

    #[test]
    fn a_slot_at_first() {
        let mut routines = Routines::new(S, [FREE; SEATS]);
        for slot in [0, 1] {
            let stored = routines.step(Step::Store { slot });
            assert_eq!(stored, Ok(Said::Store { stream: 0, answer: DISCARDED }));
            assert_eq!(routines.event_in(slot), AT_FIRST);
        }
        assert_eq!(routines.records, [FREE; SEATS]);
        assert_eq!(table(1, FREE, AT_FIRST), (FREE, DISCARDED));
    }
}
