//! Changes of calls: slices of other counts, and other numbers and octets in each place.

use super::call::{Call, Parameter, Part, LONGEST_SLICE};
use super::rows::RECORDS;
use crate::random::Random;
use crate::sheet::{SEATS, WIDTH};

/// Numbers at and about the edges of all that a number can mean in a row.
const NUMBERS: [u32; 33] = [
    0, 1, 2, 3, 4, 5, 6, 7, 8, 9, 11, 12, 13, 15, 16, 20, 60, 61, 127, 128, 191, 192, 255, 256, 257, 65535, 65536,
    65537, 16777216, 2147483648, 4294967292, 4294967294, 4294967295,
];

/// Octets at and about the edges of phases, receivers and User IDs.
const OCTETS: [u8; 14] = [0, 1, 2, 3, 4, 5, 6, 0x20, 0x21, 0x7E, 0x7F, 0x80, 0xFE, 0xFF];

/// A change of one parameter: of its count, or of the number or the octet in a place.
#[derive(Clone, Copy)]
pub enum Change {
    Count(usize),
    Number(usize, u32),
    Octet(usize, u8),
}

/// Counts about a slice's: none, one, those next to it, more, and one that is the same in eight bits.
fn counts(part: &Part) -> Vec<Change> {
    let Some(count) = part.count() else {
        return vec![];
    };
    let mut counts = vec![0, 1, count / 2, count.saturating_sub(1), count + 1, count + 2, 2 * count, count + 256];
    counts.retain(|other| *other != count && part.size_with(*other) <= LONGEST_SLICE);
    counts.sort();
    counts.dedup();
    counts.into_iter().map(Change::Count).collect()
}

/// Other numbers in one place.
fn numbers(at: usize, old: u32) -> Vec<Change> {
    let mut others = NUMBERS.to_vec();
    others.extend([1, 4, 8, 256, 65536, 1 << 31].iter().flat_map(|by| [old.wrapping_add(*by), old.wrapping_sub(*by)]));
    others.retain(|other| *other != old);
    others.sort();
    others.dedup();
    others.into_iter().map(|other| Change::Number(at, other)).collect()
}

/// Other octets in some places.
fn octets(octets: &[u8], places: impl Iterator<Item = usize>) -> Vec<Change> {
    let others = |at: usize| OCTETS.into_iter().chain((0..8).map(move |bit| octets[at] ^ 1 << bit));
    let all = places.flat_map(|at| others(at).map(move |other| (at, other)));
    all.filter(|(at, other)| octets[*at] != *other).map(|(at, other)| Change::Octet(at, other)).collect()
}

/// The first octets of every User ID, one in its middle, and its last.
fn places_in_users() -> impl Iterator<Item = usize> {
    (0..SEATS).flat_map(|s| [0, 1, 4, 5, 30, WIDTH - 1].map(|at| WIDTH * s + at))
}

/// Every change of a parameter that is read. Octets of texts, packets and names are not changed here.
fn of_part(part: &Part) -> Vec<Change> {
    match part {
        Part::Numbers(row) => row.iter().enumerate().flat_map(|(at, old)| numbers(at, *old)).collect(),
        Part::Octets(row) if row.len() <= RECORDS => octets(row, 0..row.len()),
        Part::Octets(_) => vec![],
        Part::Users(users) => octets(users, places_in_users()),
        Part::Number(old) => numbers(0, *old),
    }
}

/// Every change of a parameter; only of the count where the call does not look at what is in it.
fn of_parameter(&(name, changes): &Parameter, part: &Part) -> Vec<Change> {
    let is_read = !changes || name == "records";
    [counts(part), if is_read { of_part(part) } else { vec![] }].concat()
}

/// The call with one change of one parameter.
pub fn changed(call: &Call, part: usize, change: Change) -> Call {
    let mut other = call.clone();
    match (&mut other.parts[part], change) {
        (part, Change::Count(count)) => part.resize(count),
        (Part::Numbers(row), Change::Number(at, number)) => row[at] = number,
        (Part::Number(old), Change::Number(_, number)) => *old = number,
        (Part::Octets(octets) | Part::Users(octets), Change::Octet(at, octet)) => octets[at] = octet,
        _ => unreachable!("a change of another parameter"),
    }
    other
}

/// The call with each change of those parameters that are chosen by their names.
pub fn each<'a>(call: &'a Call, chosen: impl Fn(&str) -> bool + 'a) -> impl Iterator<Item = Call> + 'a {
    let parts = call.named().enumerate().filter(move |(_, ((name, _), _))| chosen(name));
    parts.flat_map(move |(at, (parameter, part))| {
        of_parameter(parameter, part).into_iter().map(move |change| changed(call, at, change))
    })
}

/// The call with each slice as long as it may be.
pub fn longest(call: &Call) -> impl Iterator<Item = Call> + '_ {
    let slices = call.parts.iter().enumerate().filter(|(_, part)| part.count().is_some());
    slices.map(|(at, part)| changed(call, at, Change::Count(LONGEST_SLICE / part.size_with(1))))
}

/// The call with a change by chance of one parameter, often of its count.
pub fn any_of(random: &mut Random, call: &Call, part: usize) -> Call {
    let mut all = of_parameter(&call.function.parameters()[part], &call.parts[part]);
    if random.once_in(3) && call.parts[part].count().is_some() {
        all.retain(|change| matches!(change, Change::Count(_)));
    }
    if all.is_empty() {
        return call.clone();
    }
    changed(call, part, *random.pick(&all))
}

/// The call with a change by chance.
pub fn any(random: &mut Random, call: &Call) -> Call {
    let part = random.below(call.parts.len());
    any_of(random, call, part)
}

/// The call with a change by chance of each of two parameters, for every two.
pub fn pairs(random: &mut Random, call: &Call) -> Vec<Call> {
    let mut calls = vec![];
    for b in 0..call.parts.len() {
        for a in 0..b {
            let other = any_of(random, call, a);
            calls.push(any_of(random, &other, b));
        }
    }
    calls
}
