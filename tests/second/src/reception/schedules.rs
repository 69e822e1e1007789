//! Schedules: two routines, each of which reads and works out an event and stores it, and then another.

use super::record::{Judged, Records};
use super::routines::{Routines, Said, Step};
use super::table::Event;

/// Two events of routine 0, then two of routine 1. Of the eight moves, bit i of `order` says whose move i is.
#[derive(Clone, Copy, PartialEq, Eq, Hash, Debug)]
pub struct Schedule {
    pub events: [Event; 4],
    pub order: u8,
}

/// A routine reads the stream of an event, by its place, and works it out; or it stores.
#[derive(Clone, Copy, PartialEq, Eq, Debug)]
pub struct Move {
    pub place: usize,
    pub is_store: bool,
}

/// What comes of a schedule.
#[derive(Clone, Copy, PartialEq, Eq, Debug)]
pub struct Outcome {
    /// what the store of each event said
    pub stores: [Result<Said, u32>; 4],
    /// the stores as they happened: each by its event's place, and the event that was stored
    pub stored: [(usize, Event); 4],
    pub records: Records,
}

/// Each order in which two routines make four moves each.
pub fn orders() -> impl Iterator<Item = u8> {
    (0..=255u8).filter(|order| order.count_ones() == 4)
}

impl Schedule {
    pub fn moves(&self) -> [Move; 8] {
        let mut made = [0; 2];
        std::array::from_fn(|i| {
            let routine = usize::from(self.order >> i & 1);
            let nth = made[routine];
            made[routine] += 1;
            Move { place: 2 * routine + nth / 2, is_store: nth % 2 == 1 }
        })
    }

    /// What comes of it by the three steps. Where a read or a working out is refused, the slot is left as it was.
    pub fn outcome(&self, call: Judged, records: Records) -> Outcome {
        let mut routines = Routines::new(call, records);
        let mut stores = [Err(0); 4];
        let mut stored = vec![];
        for Move { place, is_store } in self.moves() {
            let (slot, event) = (place / 2, self.events[place]);
            if is_store {
                stored.push((place, routines.event_in(slot)));
                stores[place] = routines.step(Step::Store { slot });
            } else {
                let _ = routines.step(Step::Read { slot, stream: event.stream });
                let _ = routines.step(Step::WorkOut { slot, event });
            }
        }
        Outcome { stores, stored: stored.try_into().expect("four stores"), records: routines.records }
    }
}

#[cfg(test)]
mod tests {
    use super::*;
    use crate::reception::families::{start, P13};
    use crate::reception::record::{watched, Call, ENDING, FREE, IDLE};
    use crate::reception::routines::AT_FIRST;
    use crate::reception::table::{Done, What};

    const S: Judged = Ok(Call { seats: 3, limit: 1 });
    const T11: Event = Event { stream: 0, what: What::T11Expired };

    fn request(stream: u8, by: u8) -> Event {
        Event { stream, what: What::Request { by } }
    }

    /// What each store did, with its stream.
    fn done(outcome: &Outcome) -> [Result<(u8, Done), u32>; 4] {
        outcome.stores.map(|said| match said? {
            Said::Store { stream, answer } => Ok((stream, answer.done)),
            said => panic!("{said:?} is not of a store"),
        })
    }

    #[test]
    fn p13_by_its_moves() {
        let moves = P13.moves().map(|next| (next.place, next.is_store));
        let [read, store] = [false, true];
        assert_eq!(moves, [(0, read), (2, read), (2, store), (0, store), (1, read), (1, store), (3, read), (3, store)]);
        let outcome = P13.outcome(S, start(IDLE));
        let [request, t11, open] = [P13.events[0], P13.events[2], P13.events[3]];
        assert_eq!(outcome.stored, [(2, t11), (0, request), (1, request), (3, open)]);
        let [end_request, reject, discarded] = [Done::EndRequest, Done::Reject, Done::Discarded];
        assert_eq!(done(&outcome), [Err(10), Ok((0, reject)), Ok((0, end_request)), Ok((0, discarded))]);
        assert_eq!(outcome.records, start(ENDING));
    }

    #[test]
    fn a_refused_move_leaves_its_slot() {
        let schedule = Schedule { events: [request(3, 0), T11, request(0, 2), request(0, 3)], order: 0b1111_0000 };
        let outcome = schedule.outcome(S, start(IDLE));
        assert_eq!(outcome.stored, [(0, AT_FIRST), (1, T11), (2, request(0, 2)), (3, request(0, 2))]);
        let [end_request, reject] = [Done::EndRequest, Done::Reject].map(|done| Ok((0, done)));
        assert_eq!(done(&outcome), [Err(10), end_request, reject, reject]);
        assert_eq!(outcome.records, start(ENDING));
    }

    #[test]
    fn a_refused_read_leaves_the_record_that_was_read() {
        let records = start(watched(1));
        let schedule = Schedule { events: [request(0, 1), request(2, 1), T11, request(1, 0)], order: 0b1111_0000 };
        let outcome = schedule.outcome(S, records);
        assert_eq!(outcome.stored.map(|(_, event)| event), schedule.events);
        let reject = |stream| Ok((stream, Done::Reject));
        assert_eq!(done(&outcome), [Err(9), reject(2), Err(9), reject(1)]);
        assert_eq!(outcome.records, records);
    }

    #[test]
    fn no_sheet() {
        let outcome = P13.outcome(Err(12), start(FREE));
        assert_eq!((outcome.stores, outcome.records), ([Err(12); 4], start(FREE)));
        assert_eq!(outcome.stored.map(|(_, event)| event), [AT_FIRST; 4]);
    }

    #[test]
    fn seventy_orders() {
        assert_eq!(orders().count(), 70);
        assert_eq!((orders().next(), orders().last()), (Some(0b0000_1111), Some(0b1111_0000)));
    }
}
