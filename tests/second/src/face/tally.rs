//! Counts what the calls turned out to be, and says what there is too little of.

use super::call::{Answer, Call, Function, Part, FUNCTIONS};
use super::rows;
use crate::asked::{is_enough, Wanted};
use crate::controller::answers;
use crate::packet::kinds;
use crate::sheet::{KEYS, SEATS};
use std::collections::BTreeMap;

/// There have to be so many of each refusal of each function, and so many of each sort of those that were taken.
const LEAST_REFUSED: usize = 50;
const LEAST_TAKEN: usize = 20;

#[derive(Default)]
pub struct Tally {
    /// how often each function returned each refusal, or 0
    returned: BTreeMap<(Function, u32), usize>,
    /// how often a function refused while a row was too short for an answer
    short: BTreeMap<(Function, u32), usize>,
    /// what the calls were that were taken, and the lines of sheets that were refused
    sorts: BTreeMap<String, usize>,
    /// how many packets were written by each function that read back
    back: BTreeMap<Function, usize>,
}

/// The refusals that a function has, and 0.
fn refusals(function: Function) -> &'static [u32] {
    match function {
        Function::Sheet => &[0, 11, 12],
        Function::Read => &[0, 1, 2, 3, 4, 5, 11, 12],
        Function::Write => &[0, 5, 11, 12],
        Function::Field => &[0, 4, 11],
        Function::Event => &[0, 1, 2, 3, 4, 5, 6, 7, 8, 11, 12],
        Function::Store => &[0, 9, 10, 11, 12],
        Function::Seen | Function::WorkOut | Function::Count | Function::Packet => &[0, 9, 11, 12],
    }
}

/// The count that a row has to have which comes back.
fn needed(name: &str) -> usize {
    match name {
        "sheet" => rows::SHEET,
        "message" => rows::MESSAGE,
        "field" => rows::FIELD,
        "event" => rows::EVENT,
        "record" => rows::RECORD,
        "attempt" => rows::ATTEMPT,
        "answer" => rows::ANSWER,
        "used" | "written" | "count" => 1,
        _ => 0,
    }
}

/// Whether a row is too short that is to come back.
fn is_short(call: &Call) -> bool {
    let mut rows = call.named().filter(|((_, changes), _)| *changes);
    rows.any(|((name, _), part)| part.count().is_some_and(|count| count < needed(name)))
}

fn of_answer(function: Function, name: &str) -> String {
    format!("{}, {name}", function.name())
}

/// What a call turned out to be, where that is of a sort.
fn sort(call: &Call, answer: &Answer) -> Option<String> {
    let name = call.function.name();
    match (call.function, answer.returned, &call.parts[..], &answer.after[..]) {
        (Function::Sheet, 0, _, [Part::Numbers(sheet), ..]) => Some(format!("{name}, {} seats", sheet[10])),
        (Function::Sheet, returned, ..) if returned > 256 => Some(format!("{name}, line {}", returned / 256)),
        (Function::Read, 0, _, [Part::Numbers(message)]) => Some(format!("{name}, kind {}", message[0])),
        (Function::Write, 0, [_, Part::Numbers(message), ..], _) => Some(format!("{name}, kind {}", message[0])),
        (Function::Event, 0, _, [Part::Numbers(event)]) => Some(format!("{name}, event {}", event[0])),
        (Function::WorkOut, 0, _, [Part::Numbers(attempt)]) => {
            Some(of_answer(call.function, rows::answer_in(&attempt[5..rows::ATTEMPT])?.name))
        }
        (Function::Store, 0, [_, Part::Numbers(attempt), ..], _) => {
            Some(of_answer(call.function, rows::answer_in(&attempt[5..])?.name))
        }
        (Function::Packet, 0, [_, _, _, Part::Numbers(answer), ..], _) => {
            Some(of_answer(call.function, rows::answer_in(answer)?.name))
        }
        _ => None,
    }
}

/// Every sort of a function.
fn sorts(function: Function) -> Vec<String> {
    let name = function.name();
    match function {
        Function::Sheet => {
            let lines = (1..=KEYS.len() + SEATS).map(|line| format!("{name}, line {line}"));
            (1..=SEATS).map(|seats| format!("{name}, {seats} seats")).chain(lines).collect()
        }
        Function::Read | Function::Write => kinds().map(|kind| format!("{name}, kind {kind}")).collect(),
        Function::Event => [1, 2, 5].map(|what| format!("{name}, event {what}")).to_vec(),
        Function::WorkOut | Function::Store | Function::Packet => {
            answers::all(0).map(|numbered| of_answer(function, numbered.name)).to_vec()
        }
        Function::Field | Function::Seen | Function::Count => vec![],
    }
}

impl Tally {
    /// Notes a call and its answer, and whether it wrote a packet that reads back.
    pub fn note(&mut self, call: &Call, answer: &Answer, back: bool) {
        let refusal = answer.returned % 256;
        *self.returned.entry((call.function, refusal)).or_default() += 1;
        if refusal != 0 && refusal != 11 && is_short(call) {
            *self.short.entry((call.function, refusal)).or_default() += 1;
        }
        if let Some(sort) = sort(call, answer) {
            *self.sorts.entry(sort).or_default() += 1;
        }
        if back {
            *self.back.entry(call.function).or_default() += 1;
        }
    }

    fn print_function(&self, function: Function) {
        let of_function = || self.returned.iter().filter(|((its, _), _)| *its == function);
        let calls: usize = of_function().map(|(_, count)| count).sum();
        let each: Vec<String> = of_function().map(|((_, refusal), count)| format!("{refusal}: {count}")).collect();
        let back = self.back.get(&function).map_or(String::new(), |back| format!("; {back} read back"));
        println!("{calls:8} {}, {}{back}", function.name(), each.join(", "));
    }

    /// All that has to be there.
    fn wanted(&self) -> Vec<Wanted> {
        let mut wanted = vec![];
        for function in FUNCTIONS {
            let name = function.name();
            for refusal in refusals(function) {
                let met = |counts: &BTreeMap<_, usize>| counts.get(&(function, *refusal)).copied().unwrap_or(0);
                wanted.push((met(&self.returned), format!("{name}, returned {refusal}"), LEAST_REFUSED));
                if ![0, 11].contains(refusal) {
                    let sort = format!("{name}, refused with {refusal} before a row too short");
                    wanted.push((met(&self.short), sort, 1));
                }
            }
            let met = |sort: &String| self.sorts.get(sort).copied().unwrap_or(0);
            wanted.extend(sorts(function).into_iter().map(|sort| (met(&sort), sort, LEAST_TAKEN)));
        }
        wanted
    }

    /// Prints the counts; true where there is enough of everything.
    pub fn print(&self) -> bool {
        FUNCTIONS.into_iter().for_each(|function| self.print_function(function));
        is_enough(self.wanted())
    }
}

#[cfg(test)]
mod tests {
    use super::*;

    #[test]
    fn nothing_is_not_enough() {
        let wanted = Tally::default().wanted();
        assert!(wanted.iter().all(|(met, what, least)| met < least && !what.is_empty()));
        let returned = 3 + 8 + 4 + 3 + 11 + 5 + 4 * 4;
        let before_short = returned - 2 * FUNCTIONS.len();
        assert_eq!(wanted.len(), returned + before_short + (8 + 19) + 2 * 7 + 3 + 3 * 14);
    }
}
