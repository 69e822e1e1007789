//! Calls of the C face: a function and its parameters in the order of include/coyametzi.h, and what comes of it; both
//! as octets of the C host's `calls` (tests/host/calls.c).

use crate::drafts::Octets;
use crate::wire::{lent, octets_of};

#[derive(Clone, Copy, PartialEq, Eq, PartialOrd, Ord, Debug)]
pub enum Function {
    Sheet = 1,
    Read,
    Write,
    Field,
    Event,
    Seen,
    WorkOut,
    Store,
    Count,
    Packet,
}

pub const FUNCTIONS: [Function; 10] = [
    Function::Sheet,
    Function::Read,
    Function::Write,
    Function::Field,
    Function::Event,
    Function::Seen,
    Function::WorkOut,
    Function::Store,
    Function::Count,
    Function::Packet,
];

/// As many octets as a slice has at most.
pub const LONGEST_SLICE: usize = 65536;

/// A parameter: what it is called, and whether the call may change it.
pub type Parameter = (&'static str, bool);

impl Function {
    pub fn name(self) -> &'static str {
        [
            "mcv_sheet", "mcv_read", "mcv_write", "mcv_field", "mcv_event", "mcv_seen", "mcv_work_out", "mcv_store",
            "mcv_count", "mcv_packet",
        ][self as usize - 1]
    }

    pub fn parameters(self) -> &'static [Parameter] {
        match self {
            Function::Sheet => &[("text", false), ("sheet", true), ("users", true), ("used", true)],
            Function::Read => &[("sheet", false), ("packet", false), ("message", true)],
            Function::Write => {
                &[("sheet", false), ("message", false), ("names", false), ("out", true), ("written", true)]
            }
            Function::Field => &[("packet", false), ("place", false), ("field", true)],
            Function::Event => &[("sheet", false), ("users", false), ("packet", false), ("event", true)],
            Function::Seen => &[("sheet", false), ("records", false), ("stream", false), ("record", true)],
            Function::WorkOut => &[("sheet", false), ("record", false), ("event", false), ("attempt", true)],
            Function::Store => &[("sheet", false), ("attempt", false), ("records", true), ("answer", true)],
            Function::Count => &[("sheet", false), ("records", false), ("stream", false), ("count", true)],
            Function::Packet => &[
                ("sheet", false),
                ("users", false),
                ("stream", false),
                ("answer", false),
                ("out", true),
                ("written", true),
            ],
        }
    }
}

/// What a parameter holds: a slice of numbers, a slice of octets, the 480 octets of the User IDs, or a number.
#[derive(Clone, PartialEq, Eq, Debug)]
pub enum Part {
    Numbers(Vec<u32>),
    Octets(Octets),
    Users(Octets),
    Number(u32),
}

/// The numbers that are lent: each depends on its place, and none is like the next.
pub fn lent_numbers(count: usize) -> Vec<u32> {
    (0..count as u32).map(|at| at.wrapping_mul(0x9E37_79B9).wrapping_add(0xA5A5_A5A5)).collect()
}

impl Part {
    /// How many elements a slice has; none for what is no slice.
    pub fn count(&self) -> Option<usize> {
        match self {
            Part::Numbers(numbers) => Some(numbers.len()),
            Part::Octets(octets) => Some(octets.len()),
            Part::Users(_) | Part::Number(_) => None,
        }
    }

    /// How many octets a slice has with a count.
    pub fn size_with(&self, count: usize) -> usize {
        match self {
            Part::Numbers(_) => 4 * count,
            _ => count,
        }
    }

    /// Gives a slice another count; what is new at its end is as if lent.
    pub fn resize(&mut self, count: usize) {
        match self {
            Part::Numbers(numbers) => {
                numbers.truncate(count);
                numbers.extend(&lent_numbers(count)[numbers.len()..]);
            }
            Part::Octets(octets) => {
                octets.truncate(count);
                octets.extend(&lent(count)[octets.len()..]);
            }
            Part::Users(_) | Part::Number(_) => (),
        }
    }

    /// Its elements.
    pub fn elements(&self) -> Octets {
        match self {
            Part::Numbers(numbers) => octets_of(numbers.iter().copied()),
            Part::Octets(octets) | Part::Users(octets) => octets.clone(),
            Part::Number(number) => number.to_be_bytes().to_vec(),
        }
    }
}

#[derive(Clone, PartialEq, Eq, Debug)]
pub struct Call {
    pub function: Function,
    pub parts: Vec<Part>,
}

/// What a call returned, and what the parameters hold afterwards that it may change.
#[derive(Clone, PartialEq, Eq, Debug)]
pub struct Answer {
    pub returned: u32,
    pub after: Vec<Part>,
}

impl Call {
    pub fn new(function: Function, parts: Vec<Part>) -> Call {
        assert_eq!(parts.len(), function.parameters().len());
        Call { function, parts }
    }

    /// The parameters with their names.
    pub fn named(&self) -> impl Iterator<Item = (&Parameter, &Part)> {
        self.function.parameters().iter().zip(&self.parts)
    }

    /// What the parameters hold before the call that it may change.
    pub fn lent(&self) -> Vec<Part> {
        self.named().filter(|((_, changes), _)| *changes).map(|(_, part)| part.clone()).collect()
    }

    /// The function, then every parameter, a slice behind its count.
    pub fn octets(&self) -> Octets {
        let mut octets = vec![self.function as u8];
        for part in &self.parts {
            octets.extend(part.count().into_iter().flat_map(|count| (count as u32).to_be_bytes()));
            octets.extend(part.elements());
        }
        octets
    }
}

impl Answer {
    pub fn octets(&self) -> Octets {
        let mut octets = self.returned.to_be_bytes().to_vec();
        octets.extend(self.after.iter().flat_map(Part::elements));
        octets
    }
}

#[cfg(test)]
mod tests {
    use super::*;

    #[test]
    fn calls_and_answers_as_octets() {
        let parts = vec![Part::Octets(vec![7, 8]), Part::Number(258), Part::Numbers(vec![1, 2, 3, u32::MAX])];
        let call = Call::new(Function::Field, parts);
        let front = [4, 0, 0, 0, 2, 7, 8, 0, 0, 1, 2, 0, 0, 0, 4];
        let field = [0, 0, 0, 1, 0, 0, 0, 2, 0, 0, 0, 3, 255, 255, 255, 255];
        assert_eq!(call.octets(), [&front[..], &field].concat());
        assert_eq!(Answer { returned: 11, after: call.lent() }.octets(), [&[0, 0, 0, 11][..], &field].concat());
    }

    #[test]
    fn functions_by_their_numbers() {
        assert_eq!(FUNCTIONS.map(|function| function as u8), [1, 2, 3, 4, 5, 6, 7, 8, 9, 10]);
        assert_eq!((Function::Store.name(), Function::Packet.name()), ("mcv_store", "mcv_packet"));
    }

    #[test]
    fn slices_of_another_count() {
        let mut part = Part::Octets(vec![9, 9]);
        part.resize(3);
        assert_eq!(part, Part::Octets(vec![9, 9, lent(3)[2]]));
        let mut part = Part::Numbers(vec![9, 9]);
        part.resize(1);
        assert_eq!(part, Part::Numbers(vec![9]));
        part.resize(2);
        assert_eq!(part, Part::Numbers(vec![9, lent_numbers(2)[1]]));
    }
}
