//! What the cases about the controller have to turn out to be, and how often at least.

use super::answers::{self, Numbered};
use super::sorts::{at_once, of_event, of_seats, FORMS, NAMED, SENDERS, SHEETS, SSRCS};
use super::tally::{every_buffer, Tally};
use crate::asked::Wanted;
use crate::sheet::{SEATS, WIDTH};

/// There have to be so many packets, under so many sheets, and so many sheets of each sort.
const LEAST_PACKETS: usize = 100_000;
const LEAST_SHEETS: usize = 50;
const LEAST_OF_SORT: usize = 8;

/// The least that there has to be of each sort of packet and of each of answer.
const LEAST_EACH: usize = 500;
const LEAST_ANSWERS: usize = 50;

/// What a packet offered is refused with.
const REFUSALS: [u32; 9] = [1, 2, 3, 4, 5, 6, 7, 8, 12];

/// Refusals that hold at once, the one that is given first: of packets, and of answers.
const OF_PACKETS: [(u32, u32); 11] =
    [(12, 1), (12, 2), (12, 3), (12, 4), (12, 5), (12, 8), (12, 6), (12, 7), (8, 6), (8, 7), (6, 7)];
const OF_ANSWERS: [(u32, u32); 3] = [(12, 9), (12, 11), (9, 11)];

/// Every event on one's own stream and on another's, with and without an Ack asked.
fn events() -> Vec<String> {
    let mut events = vec![];
    for ack in [false, true] {
        for what in ["request", "end"] {
            events.extend([false, true].map(|is_own| of_event(what, is_own, ack)));
        }
        events.push(of_event("end response", true, ack));
    }
    events
}

/// All that packets have to turn out to be.
fn of_packets() -> Vec<String> {
    let mut wanted = events();
    wanted.extend((0..SEATS).flat_map(|s| [format!("events by seat {s}"), format!("events on stream {s}")]));
    wanted.extend(FORMS.map(String::from));
    wanted.extend(SSRCS.map(|ssrc| format!("events by a seat with {ssrc}")));
    wanted.extend(REFUSALS.map(|refusal| format!("packets refused, {refusal:2}")));
    wanted.extend(OF_PACKETS.map(|(given, other)| at_once("packets", given, other)));
    wanted.extend(SENDERS.map(|sort| format!("senders refused, {sort}")));
    wanted.extend(NAMED.map(|sort| format!("names refused, {sort}")));
    wanted
}

/// All that an answer has to turn out to be.
fn of_answer(answer: &Numbered) -> Vec<String> {
    let name = answer.name;
    let mut wanted: Vec<String> = [9, 12].map(|refusal| format!("answers refused, {refusal:2}, {name}")).to_vec();
    if answer.sends() {
        wanted.extend([format!("answers refused, 11, {name}"), format!("answers written, {name}")]);
    } else {
        wanted.push(format!("answers that send nothing, {name}"));
    }
    wanted
}

/// All that has to be there.
pub fn all(tally: &Tally) -> Vec<Wanted> {
    let each = |sorts: Vec<String>, least| sorts.into_iter().map(move |sort| (tally.met(&sort), sort, least));
    let mut all = vec![
        (tally.packets(), "packets".to_string(), LEAST_PACKETS),
        (tally.sheets.len(), "sheets with packets".to_string(), LEAST_SHEETS),
    ];
    all.extend(each(SHEETS.map(|sort| format!("sheets with {sort}")).to_vec(), LEAST_OF_SORT));
    all.extend(each((1..=SEATS).map(of_seats).collect(), LEAST_OF_SORT));
    all.extend(each(of_packets(), LEAST_EACH));
    for answer in answers::all(0) {
        all.extend(each(of_answer(&answer), LEAST_ANSWERS));
        all.extend(each(vec![every_buffer(answer.name)], 1));
        if answer.names() {
            let sort = format!("lengths of User IDs, {}", answer.name);
            all.push((tally.lengths_named(answer.name), sort, WIDTH));
        }
    }
    all.extend(each(OF_ANSWERS.map(|(given, other)| at_once("answers", given, other)).to_vec(), LEAST_ANSWERS));
    all
}

#[cfg(test)]
mod tests {
    use super::*;

    #[test]
    fn nothing_is_not_enough() {
        let wanted = all(&Tally::default());
        assert!(wanted.iter().all(|(met, what, least)| met < least && !what.is_empty()));
        assert_eq!(wanted.len(), 2 + 5 + 8 + (10 + 16 + 2 + 2 + 9 + 11 + 6 + 3) + (8 * 5 + 6 * 4 + 2) + 3);
    }
}
