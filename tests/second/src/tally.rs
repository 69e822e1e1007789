//! Counts what the cases turned out to be, and says what there is too little of.

use crate::asked::{self, is_enough, Wanted};
use crate::drafts::Octets;
use crate::packet::{kinds, Message, Reading, Step, INDICATED};
use crate::rooms::Rooms;
use crate::sheet::{KEYS, SEATS};
use crate::wire::{Answer, Case, Steps};
use crate::writer::{self, Writing};
use std::collections::{BTreeMap, BTreeSet};

/// The last line of the longest sheet.
const LAST_LINE: u32 = (KEYS.len() + SEATS) as u32;

/// There have to be so many packets read or refused, and so many messages written; so many of each sort of them; and
/// so many sheets for either.
const LEAST_PACKETS: usize = 200_000;
const LEAST_WRITTEN: usize = 100_000;
const LEAST_EACH: usize = 1_000;
const LEAST_SHEETS: usize = 50;

/// The kinds whose messages have names.
const NAMED: [u32; 3] = [1, 3, 4];

/// The numbers and SSRCs of sheets.
type Sheets = BTreeSet<([u32; KEYS.len()], [u32; SEATS])>;

#[derive(Default)]
pub struct Tally {
    counts: BTreeMap<String, usize>,
    /// under which good sheets packets were read
    read_under: Sheets,
    /// under which good sheets messages were written
    written_under: Sheets,
    /// how long the buffers were for the packets of each shape
    rooms: Rooms,
}

/// What a case, or each part of it, turned out to be.
fn sorts(case: &Case, answer: &Answer) -> Vec<String> {
    match answer {
        Answer::Read { refusal: 0, sheet, .. } => vec![format!("texts read, {} seats", sheet.number("seats"))],
        Answer::Read { line, .. } => vec![format!("texts refused, line {line:2}")],
        Answer::Valid { alone, whole } => vec![format!("values, numbers {}, whole {}", judged(*alone), judged(*whole))],
        Answer::Seat(Some(s)) => vec![format!("searches, seat {s}")],
        Answer::Seat(None) => vec!["searches, nobody".to_string()],
        Answer::UserId(is) => vec![format!("names, {}", judged(*is))],
        Answer::Packets(readings) => readings.iter().map(sort_of_reading).collect(),
        Answer::Fields(steps) => steps.iter().flat_map(sorts_of_steps).collect(),
        Answer::Write(writing, ..) => vec![sort_of_writing(case, writing)],
    }
}

fn sort_of_reading(reading: &Reading) -> String {
    match reading {
        Ok(message) => format!("packets read, kind {}", message.kind),
        Err(refusal) => format!("packets refused, {refusal:2}"),
    }
}

fn sort_of_step(step: &Step) -> String {
    match step {
        Ok(Some(_)) => "a field".to_string(),
        Ok(None) => "the end".to_string(),
        Err(refusal) => format!("refused, {refusal:2}"),
    }
}

fn sorts_of_steps((stands, reader): &Steps) -> [String; 2] {
    [format!("places, {}", sort_of_step(stands)), format!("field readers, {}", sort_of_step(reader))]
}

fn sort_of_writing(case: &Case, writing: &Writing) -> String {
    let Case::Write(_, message, ..) = case else {
        unreachable!("only a message is written");
    };
    match writing {
        Ok(_) => format!("messages written, {}", shape(message)),
        Err(refusal) => format!("messages refused, {refusal:2}, kind {}", message.kind),
    }
}

/// A message's kind, its Result, and whether it has an Indicator.
fn shape(message: &Message) -> String {
    let result = message.result.map_or(String::new(), |result| format!(", Result {result}"));
    let indicator = if message.indicator.is_some() { ", Indicator" } else { "" };
    format!("kind {}{result}{indicator}", message.kind)
}

fn judged(good: bool) -> &'static str {
    if good {
        "good"
    } else {
        "bad"
    }
}

/// All that the cases about sheets have to turn out to be.
fn wanted_of_sheets() -> Vec<String> {
    let mut wanted: Vec<String> = (1..=8).map(|n| format!("texts read, {n} seats")).collect();
    wanted.extend((1..=LAST_LINE).map(|line| format!("texts refused, line {line:2}")));
    wanted.extend(["good, whole good", "good, whole bad", "bad, whole bad"].map(|v| format!("values, numbers {v}")));
    wanted.extend((0..8).map(|s| format!("searches, seat {s}")));
    wanted.extend(["searches, nobody", "names, good", "names, bad"].map(String::from));
    wanted
}

/// All that packets and the places in them have to turn out to be.
fn wanted_of_packets() -> Vec<String> {
    let mut wanted: Vec<String> = kinds().map(|kind| format!("packets read, kind {kind}")).collect();
    wanted.extend([1, 2, 3, 4, 5, 12].map(|refusal| format!("packets refused, {refusal:2}")));
    wanted.extend(["a field", "the end", "refused,  4"].map(|said| format!("places, {said}")));
    let readers = ["a field", "the end", "refused,  1", "refused,  2", "refused,  4"];
    wanted.extend(readers.map(|said| format!("field readers, {said}")));
    wanted
}

/// Every shape of every kind.
fn shapes() -> Vec<String> {
    let mut shapes = vec![];
    for kind in kinds() {
        let results: &[Option<u16>] = if kind == 2 { &[Some(0), Some(1)] } else { &[None] };
        let indicators: &[Option<u16>] = if INDICATED.contains(&kind) { &[None, Some(0)] } else { &[None] };
        for result in results {
            let shaped = |indicator| shape(&Message { kind, result: *result, indicator, ..Message::default() });
            shapes.extend(indicators.iter().map(|indicator| shaped(*indicator)));
        }
    }
    shapes
}

/// All that messages to write have to turn out to be: each shape written, and each refusal that a kind can have.
fn wanted_of_messages() -> Vec<String> {
    let mut wanted: Vec<String> = shapes().iter().map(|shape| format!("messages written, {shape}")).collect();
    for kind in kinds() {
        let refusals: &[u32] = if NAMED.contains(&kind) { &[5, 11, 12] } else { &[11, 12] };
        wanted.extend(refusals.iter().map(|refusal| format!("messages refused, {refusal:2}, kind {kind}")));
    }
    wanted
}

fn every_buffer(shape: &str) -> String {
    format!("buffers of every length, {shape}")
}

impl Tally {
    fn count(&mut self, sort: String) {
        *self.counts.entry(sort).or_default() += 1;
    }

    pub fn note(&mut self, case: &Case, answer: &Answer) {
        sorts(case, answer).into_iter().for_each(|sort| self.count(sort));
        match (case, answer) {
            (Case::Packets(sheet, _), Answer::Packets(readings)) if readings.iter().any(|r| *r != Err(12)) => {
                self.read_under.insert((sheet.numbers, sheet.ssrcs));
            }
            (Case::Write(sheet, message, names, room), Answer::Write(writing, ..)) if *writing != Err(12) => {
                self.written_under.insert((sheet.numbers, sheet.ssrcs));
                self.note_room(&shape(message), writer::packet_of(sheet, message, names), *room);
            }
            _ => (),
        }
    }

    /// Notes how long a packet's buffer was, and counts the packet once there was every length.
    fn note_room(&mut self, shape: &str, packet: Option<Octets>, room: usize) {
        if packet.is_some_and(|packet| self.rooms.is_last(shape, &packet, room)) {
            self.count(every_buffer(shape));
        }
    }

    /// How many turned out to be something that begins so.
    fn sum(&self, front: &str) -> usize {
        self.counts.iter().filter(|(sort, _)| sort.starts_with(front)).map(|(_, n)| n).sum()
    }

    /// All that has to be there.
    fn wanted(&self) -> Vec<Wanted> {
        let met = |sort: &String| self.counts.get(sort).copied().unwrap_or(0);
        let each = |sorts: Vec<String>, least| sorts.into_iter().map(move |sort| (met(&sort), sort, least));
        let mut wanted = vec![
            (self.sum("packets"), "packets".to_string(), LEAST_PACKETS),
            (self.read_under.len(), "sheets with packets".to_string(), LEAST_SHEETS),
            (self.sum("messages written"), "messages written".to_string(), LEAST_WRITTEN),
            (self.written_under.len(), "sheets with messages".to_string(), LEAST_SHEETS),
        ];
        wanted.extend(each(wanted_of_sheets(), 1));
        wanted.extend(each(wanted_of_packets(), LEAST_EACH));
        wanted.extend(each(wanted_of_messages(), LEAST_EACH));
        wanted.extend(each(shapes().iter().map(|shape| every_buffer(shape)).collect(), 1));
        wanted
    }
}

impl asked::Tally for Tally {
    fn print(&self) -> bool {
        for (sort, count) in &self.counts {
            println!("{count:8} {sort}");
        }
        let (texts, packets, places) = (self.sum("texts"), self.sum("packets"), self.sum("places"));
        let (messages, written) = (self.sum("messages"), self.sum("messages written"));
        let (read_under, written_under) = (self.read_under.len(), self.written_under.len());
        println!("{texts} texts of sheets; {packets} packets under {read_under} sheets; {places} places of fields");
        println!("{messages} messages to write under {written_under} sheets; {written} written and read back");
        is_enough(self.wanted())
    }
}
