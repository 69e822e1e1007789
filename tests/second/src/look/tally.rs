//! Counts what the inputs turned out to be, by what is printed for them.

use crate::asked::is_enough;
use crate::packet::kinds;
use std::collections::BTreeMap;
use std::ops::RangeInclusive;

/// The refusals that a packet can print.
const REFUSALS: RangeInclusive<u32> = 1..=5;

#[derive(Default)]
pub struct Tally {
    inputs: usize,
    lines: usize,
    /// how many lines begin with each word
    words: BTreeMap<String, usize>,
}

/// What a line begins with: for a refused sheet the key alone.
fn word(line: &[u8]) -> String {
    let end = line.iter().position(|octet| *octet == b' ').unwrap_or(line.len());
    let word = String::from_utf8_lossy(&line[..end]).trim_end().to_string();
    if word.starts_with("sheet=") {
        "sheet".to_string()
    } else {
        word
    }
}

impl Tally {
    /// Notes an input by what is printed for it.
    pub fn note(&mut self, printed: &[u8]) {
        self.inputs += 1;
        for line in printed.split_inclusive(|octet| *octet == b'\n') {
            self.lines += 1;
            *self.words.entry(word(line)).or_default() += 1;
        }
    }

    fn met(&self, word: &str) -> usize {
        self.words.get(word).copied().unwrap_or(0)
    }

    /// How many lines begin with a key and each number.
    fn each(&self, key: &str, numbers: RangeInclusive<u32>) -> String {
        let counts: Vec<String> = numbers.map(|n| format!("{n}: {}", self.met(&format!("{key}={n}")))).collect();
        format!("{key} {}", counts.join(", "))
    }

    /// Prints the counts; true where each kind and each refusal is there.
    pub fn print(&self) -> bool {
        let (inputs, lines, sheets) = (self.inputs, self.lines, self.met("sheet"));
        let (read, refused) = (self.each("kind", kinds()), self.each("refused", REFUSALS));
        println!("{inputs} inputs; {lines} lines printed; {sheets} sheets refused; {read}; {refused}");
        let words = kinds().map(|n| format!("kind={n}")).chain(REFUSALS.map(|n| format!("refused={n}")));
        is_enough(words.chain(["sheet".to_string()]).map(|word| (self.met(&word), word, 1)).collect())
    }
}

#[cfg(test)]
mod tests {
    use super::*;
    use crate::look::{inputs, look, sample};

    fn tally(inputs: impl Iterator<Item = Vec<u8>>) -> Tally {
        let mut tally = Tally::default();
        inputs.for_each(|input| tally.note(&look(&input)));
        tally
    }

    #[test]
    fn made_inputs_show_every_kind_and_refusal() {
        for seed in 1..4 {
            assert!(tally(inputs::some(seed, 300)).print());
        }
    }

    #[test]
    fn one_that_is_missing_is_seen() {
        let mut tally = tally([sample::every(), vec![]].into_iter());
        assert!(tally.print());
        for word in tally.words.keys().cloned().collect::<Vec<String>>() {
            let count = tally.words.remove(&word).unwrap();
            assert!(!tally.print(), "{word}");
            tally.words.insert(word, count);
        }
        assert_eq!((tally.inputs, tally.met("sheet")), (2, 1));
    }
}
