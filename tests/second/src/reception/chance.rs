//! Steps of two routines and schedules by chance.

use super::attempts;
use super::record::{watched, Call, Record, Records, ENDING, FREE, IDLE};
use super::routines::Step;
use super::schedules::{self, Schedule};
use super::table::{Event, What};
use super::wire::{Case, STEPS};
use crate::good;
use crate::random::Random;
use crate::sheet::{Sheet, SEATS};
use crate::values;

/// The fewest steps of a row; the most are those of a case.
const FEWEST: u32 = 5;

/// The most schedules of a case.
const SCHEDULES: usize = 4;

/// A call, and the few streams that both routines are busy with.
struct Scene {
    call: Call,
    streams: Vec<u8>,
}

/// What a routine is about: a stream, and how far it is with reading, working out and storing.
#[derive(Default)]
struct Routine {
    stream: u8,
    done: usize,
}

impl Scene {
    fn new(random: &mut Random, sheet: &Sheet) -> Scene {
        let call = attempts::call_in(sheet);
        let streams = (0..=random.below(2)).map(|_| random.below(call.seats.into()) as u8).collect();
        Scene { call, streams }
    }

    /// One of the streams, at times another, even off the sheet.
    fn stream(&self, random: &mut Random) -> u8 {
        match random.below(40) {
            0 => random.octet(),
            1..=3 => random.below(SEATS) as u8,
            _ => *random.pick(&self.streams),
        }
    }

    /// A seat on the sheet, at times another.
    fn seat(&self, random: &mut Random) -> u8 {
        match random.below(40) {
            0 => random.octet(),
            1 => random.below(SEATS) as u8,
            _ => random.below(self.call.seats.into()) as u8,
        }
    }

    fn event(&self, random: &mut Random, stream: u8) -> Event {
        let by = self.seat(random);
        let what = match random.below(9) {
            0..=2 => What::Request { by },
            3 | 4 => What::End { by },
            5 => What::Open,
            6 => What::T11Expired,
            7 => What::EndResponse { ack: random.once_in(2) },
            _ => What::Release,
        };
        Event { stream, what }
    }

    /// A legal record of a stream.
    fn record(&self, random: &mut Random, stream: u8) -> Record {
        let mut others: Vec<u8> = (0..self.call.seats).filter(|r| *r != stream).collect();
        if others.is_empty() || random.once_in(2) {
            return *random.pick(&[FREE, IDLE, ENDING]);
        }
        random.shuffle(&mut others);
        others.truncate(random.within(1, self.call.limit) as usize);
        watched(others.iter().map(|r| 1 << r).sum())
    }

    /// Legal records, at times but for one.
    fn records(&self, random: &mut Random) -> Records {
        let mut records = [FREE; SEATS];
        for stream in 0..self.call.seats {
            records[usize::from(stream)] = self.record(random, stream);
        }
        if random.once_in(4) {
            let all: Vec<Record> = attempts::records().collect();
            records[random.below(SEATS)] = *random.pick(&all);
        }
        records
    }

    /// The next step that a routine needs.
    fn next(&self, random: &mut Random, slot: usize, routine: &mut Routine) -> Step {
        routine.done += 1;
        match routine.done % 3 {
            1 => {
                routine.stream = self.stream(random);
                Step::Read { slot, stream: routine.stream }
            }
            2 => Step::WorkOut { slot, event: self.event(random, routine.stream) },
            _ => Step::Store { slot },
        }
    }

    /// A step out of turn: a count, a store too early or once more, or a working out from whatever was read.
    fn out_of_turn(&self, random: &mut Random, slot: usize) -> Step {
        let stream = self.stream(random);
        match random.below(4) {
            0 => Step::Count { slot, stream },
            1 => Step::WorkOut { slot, event: self.event(random, stream) },
            _ => Step::Store { slot },
        }
    }

    fn step(&self, random: &mut Random, routines: &mut [Routine; 2]) -> Step {
        let slot = random.below(2);
        if random.once_in(5) {
            self.out_of_turn(random, slot)
        } else {
            self.next(random, slot, &mut routines[slot])
        }
    }

    fn schedule(&self, random: &mut Random) -> Schedule {
        let mut event = || {
            let stream = self.stream(random);
            self.event(random, stream)
        };
        let events = [event(), event(), event(), event()];
        let orders: Vec<u8> = schedules::orders().collect();
        Schedule { events, order: *random.pick(&orders) }
    }
}

/// A sheet by chance.
fn good_sheet(random: &mut Random) -> Sheet {
    let seats = random.below(SEATS) + 1;
    good::sheet(random, seats)
}

/// The sheet's value, at times spoilt.
fn value(random: &mut Random, sheet: Sheet) -> Sheet {
    if random.once_in(12) {
        values::spoilt(random, &sheet)
    } else {
        sheet
    }
}

/// Steps of two routines that get into each other's way.
pub fn steps(random: &mut Random) -> Case {
    let sheet = good_sheet(random);
    let scene = Scene::new(random, &sheet);
    let records = scene.records(random);
    let mut routines = [Routine::default(), Routine::default()];
    let steps = (0..random.within(FEWEST, STEPS as u32)).map(|_| scene.step(random, &mut routines)).collect();
    Case::Steps(value(random, sheet), records, steps)
}

/// Some schedules with events on the same few streams.
pub fn schedules(random: &mut Random) -> Case {
    let sheet = good_sheet(random);
    let scene = Scene::new(random, &sheet);
    let records = scene.records(random);
    let schedules = (0..=random.below(SCHEDULES)).map(|_| scene.schedule(random)).collect();
    Case::Schedules(value(random, sheet), records, schedules)
}
