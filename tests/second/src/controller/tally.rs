//! Counts what the cases about the controller turned out to be.

use super::answers::{self, Numbered};
use super::sending::{sent, Sending};
use super::sorts;
use super::wanted;
use super::wire::{Answers, Case};
use crate::asked::{self, is_enough};
use crate::rooms::Rooms;
use crate::sheet::{self, Sheet};
use std::collections::{BTreeMap, BTreeSet, HashSet};

#[derive(Default)]
pub struct Tally {
    counts: BTreeMap<String, usize>,
    /// under which sheets packets were offered
    pub sheets: HashSet<Sheet>,
    /// how long the buffers were for the packets of each answer
    rooms: Rooms,
    /// which answers named transmitters with User IDs of which lengths, in buffers of every length
    named: BTreeSet<(&'static str, usize)>,
}

pub fn every_buffer(name: &str) -> String {
    format!("buffers of every length, {name}")
}

impl Tally {
    fn count(&mut self, sort: String) {
        *self.counts.entry(sort).or_default() += 1;
    }

    pub fn note(&mut self, case: &Case, answers: &Answers) {
        match (case, answers) {
            (Case::Events(sheet, packets), Answers::Events(offered)) => {
                for (packet, offered) in packets.iter().zip(offered) {
                    sorts::of_packet(sheet, packet, *offered).into_iter().for_each(|sort| self.count(sort));
                }
                if offered.iter().any(|offered| *offered != Err(12)) && self.sheets.insert(sheet.clone()) {
                    sorts::of_sheet(sheet).into_iter().for_each(|sort| self.count(sort));
                }
            }
            (Case::Packet(sheet, stream, answer, room), Answers::Packet(sending, _)) => {
                let sorts = sorts::of_answer(sheet, *stream, answer, *room, *sending);
                sorts.into_iter().for_each(|sort| self.count(sort));
                self.note_room(sheet, *stream, answer, *room, *sending);
            }
            _ => unreachable!("an answer to another question"),
        }
    }

    /// Notes how long the buffer was, and counts the packet, which is empty where nothing is sent, once there was every
    /// length.
    fn note_room(&mut self, sheet: &Sheet, stream: u8, answer: &Numbered, room: usize, sending: Sending) {
        if matches!(sending, Err(12 | 9)) {
            return;
        }
        let packet = sent(sheet, stream, &answer.answer).unwrap_or_default();
        if !self.rooms.is_last(answer.name, &packet, room) {
            return;
        }
        self.count(every_buffer(answer.name));
        if answer.names() {
            self.named.insert((answer.name, sheet::name_in(&sheet.users[usize::from(stream)]).len()));
        }
    }

    pub fn met(&self, sort: &str) -> usize {
        self.counts.get(sort).copied().unwrap_or(0)
    }

    /// How many turned out to be something that begins so.
    pub fn sum(&self, front: &str) -> usize {
        self.counts.iter().filter(|(sort, _)| sort.starts_with(front)).map(|(_, n)| n).sum()
    }

    pub fn packets(&self) -> usize {
        self.sum("events, ") + self.sum("packets refused, ")
    }

    /// How many lengths the User IDs had that an answer named in buffers of every length.
    pub fn lengths_named(&self, answer: &str) -> usize {
        self.named.iter().filter(|(name, _)| *name == answer).count()
    }
}

impl asked::Tally for Tally {
    fn print(&self) -> bool {
        for (sort, count) in &self.counts {
            println!("{count:8} {sort}");
        }
        let (packets, events, sheets) = (self.packets(), self.sum("events, "), self.sheets.len());
        let (written, silent) = (self.sum("answers written"), self.sum("answers that send nothing"));
        let refused = self.sum("answers refused, ");
        println!("{packets} packets offered under {sheets} sheets; {events} made an event");
        println!("{written} answers written and read back; {silent} that send nothing; {refused} refused");
        for name in answers::all(0).iter().filter(|answer| answer.names()).map(|answer| answer.name) {
            println!("{name} with User IDs of {} lengths, in buffers of every length", self.lengths_named(name));
        }
        is_enough(wanted::all(self))
    }
}

#[cfg(test)]
mod tests {
    use super::*;
    use crate::asked::Tally as _;
    use crate::bench::sheet_s;
    use crate::controller::sample;

    fn noted(cases: &[Case]) -> Tally {
        let mut tally = Tally::default();
        cases.iter().for_each(|case| tally.note(case, &case.answers()));
        tally
    }

    #[test]
    fn the_sample_by_its_counts() {
        let tally = noted(&sample::cases());
        for refusal in [1, 2, 3, 4, 5, 12] {
            assert_eq!(tally.met(&format!("packets refused, {refusal:2}")), 1, "{refusal}");
        }
        assert_eq!([6, 7, 8].map(|refusal| tally.met(&format!("packets refused, {refusal:2}"))), [3, 2, 5]);
        assert_eq!((tally.sum("events, "), tally.sum("events by seat"), tally.sum("events on stream")), (6, 6, 6));
        assert_eq!((tally.sum("answers written"), tally.sum("answers that send nothing")), (8, 6));
        assert_eq!((tally.sum("answers refused, "), tally.sheets.len()), (3, 1));
        assert!(!tally.print());
    }

    #[test]
    fn one_length_less_is_seen() {
        let [_, _, _, _, ended, ..] = answers::all(0);
        let case = |room| Case::Packet(sheet_s(), 1, ended, room);
        let cases: Vec<Case> = (0..28).map(case).collect();
        assert_eq!(noted(&cases).lengths_named("Ended"), 0);
        let tally = noted(&[cases, vec![case(28)]].concat());
        assert_eq!((tally.lengths_named("Ended"), tally.met(&every_buffer("Ended"))), (1, 1));
        assert_eq!((tally.met("answers refused, 11, Ended"), tally.met("answers written, Ended")), (20, 9));
    }
}
