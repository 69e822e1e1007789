//! Calls and answers for a person to read.

use super::call::{Answer, Call, Part};
use crate::drafts::Octets;
use crate::sheet;
use crate::shown::hex;
use crate::wire::take_number;

/// How much of a parameter is shown.
const LONGEST: usize = 600;

/// The User IDs without the zeros at their ends.
fn users(octets: &[u8]) -> Vec<String> {
    let (rows, _) = octets.as_chunks();
    rows.iter().map(|row| sheet::name_in(row).escape_ascii().to_string()).collect()
}

fn part(part: &Part) -> String {
    let shown = match part {
        Part::Numbers(numbers) => format!("{} {numbers:?}", numbers.len()),
        Part::Octets(octets) => format!("{} {}", octets.len(), hex(octets)),
        Part::Users(octets) => format!("{:?}", users(octets)),
        Part::Number(number) => number.to_string(),
    };
    format!("{shown:.LONGEST$}")
}

/// The function, and each parameter as it was before the call: slices behind their counts, octets in hex.
pub fn call(call: &Call) -> String {
    let parameters = call.named().map(|((name, _), held)| format!("\n    {name} {}", part(held)));
    format!("  {}{}", call.function.name(), parameters.collect::<String>())
}

/// What a call returned, and each parameter afterwards that it may change.
pub fn answer(call: &Call, answer: &Answer) -> String {
    let names = call.function.parameters().iter().filter(|(_, changes)| *changes);
    let after = names.zip(&answer.after).map(|((name, _), held)| format!("\n    {name} {}", part(held)));
    let (refusal, line) = (answer.returned % 256, answer.returned / 256);
    format!("{} (refusal {refusal}, line {line}){}", answer.returned, after.collect::<String>())
}

/// So many octets off the front.
fn take(octets: &mut &[u8], count: usize) -> Option<Octets> {
    let (front, rest) = octets.split_at_checked(count)?;
    *octets = rest;
    Some(front.to_vec())
}

fn part_from(octets: &mut &[u8], lent: &Part) -> Option<Part> {
    Some(match lent {
        Part::Numbers(numbers) => {
            Part::Numbers(numbers.iter().map(|_| take_number(octets)).collect::<Option<Vec<u32>>>()?)
        }
        Part::Octets(lent) => Part::Octets(take(octets, lent.len())?),
        Part::Users(lent) => Part::Users(take(octets, lent.len())?),
        Part::Number(_) => Part::Number(take_number(octets)?),
    })
}

/// The answer to a call that these octets are; none where they are too few or too many.
pub fn answer_from(call: &Call, mut octets: &[u8]) -> Option<Answer> {
    let returned = take_number(&mut octets)?;
    let after = call.lent().iter().map(|lent| part_from(&mut octets, lent)).collect::<Option<Vec<Part>>>()?;
    octets.is_empty().then_some(Answer { returned, after })
}
