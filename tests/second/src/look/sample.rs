//! The samples that `mcvlook` is tried on, samples/bench.txt and samples/every.txt; what they print stands beside them.

use super::sample_lines::{NO_PACKETS, REFUSED_1, REFUSED_2, REFUSED_3, REFUSED_4};
use super::sample_messages::{Made, READ, REFUSED_5};
use crate::bench::{PACKETS, S};
use crate::drafts::{Draft, Part};
use crate::packet::{LONGEST, MESSAGES};
use crate::shown::hex;

/// The digits of the longest line in the sample.
const LONG: usize = 100_000;

/// Sheet S and the lines, each with its LF.
fn under_s(lines: &[impl AsRef<str>]) -> Vec<u8> {
    let lines: String = lines.iter().map(|line| format!("{}\n", line.as_ref())).collect();
    [S, &lines].concat().into_bytes()
}

/// The input of document 01's example.
pub fn example() -> Vec<u8> {
    under_s(&[PACKETS[2], PACKETS[0], "80"])
}

/// Sheet S and P1 to P5.
pub fn bench() -> Vec<u8> {
    under_s(&PACKETS)
}

/// The line of a message under S, whose numbers are those of the kinds.
fn line((kind, ack, ssrc, fields): &Made) -> String {
    let fields = fields.iter().map(|(id, value)| Part(*id, value.to_vec())).collect();
    let (letters, _) = MESSAGES[usize::from(*kind) - 1];
    hex(&Draft { ack: *ack, number: *kind, ssrc: *ssrc, letters: *letters, fields }.octets())
}

/// A transmission end response under S, and behind it words of zeros, which are skipped, up to so many octets in all.
pub fn filled(octets: usize) -> String {
    format!("86CC{:04X}000003E84D435632{}", octets / 4 - 1, "00".repeat(octets - 12))
}

/// Lines of 504, 510, 512, 514 and 520 digits, and a long one, which all begin as a good packet does.
fn about_the_longest() -> Vec<String> {
    let longest = filled(LONGEST);
    let cut = longest[..2 * LONGEST - 2].to_string();
    let [more, long] = [2 * LONGEST + 2, LONG].map(|digits| longest.clone() + &"0".repeat(digits - longest.len()));
    vec![filled(LONGEST - 4), cut, longest, more, filled(LONGEST + 4), long]
}

/// The line in upper case, in lower case, or with every other letter in lower case.
fn in_case(line: &str, at: usize) -> String {
    let lower = |(place, digit): (usize, char)| if place % 2 == 0 { digit.to_ascii_lowercase() } else { digit };
    match at % 3 {
        0 => line.to_string(),
        1 => line.to_ascii_lowercase(),
        _ => line.char_indices().map(lower).collect(),
    }
}

/// Sheet S and lines of every sort; the last one has no LF.
pub fn every() -> Vec<u8> {
    let made = [&READ[..], &REFUSED_5].concat();
    let mut lines: Vec<String> = made.iter().enumerate().map(|(at, made)| in_case(&line(made), at)).collect();
    for list in [&REFUSED_1[..], &REFUSED_2, &REFUSED_3, &REFUSED_4, &NO_PACKETS] {
        lines.extend(list.iter().map(|line| line.to_string()));
    }
    lines.extend(about_the_longest());
    lines.extend((0..3).flat_map(|at| PACKETS.map(|line| in_case(line, at))));
    let mut input = under_s(&lines);
    input.pop();
    input
}

#[cfg(test)]
mod tests {
    use super::*;
    use crate::look::look;

    fn file(name: &str) -> Vec<u8> {
        std::fs::read(format!("{}/../../samples/{name}", env!("CARGO_MANIFEST_DIR"))).unwrap()
    }

    #[test]
    fn the_samples_are_these() {
        assert!(file("bench.txt") == bench() && file("every.txt") == every());
        assert!(file("every.out") == look(&every()));
    }

    /// The refusals of lines under S, 0 for a line that is read.
    fn refusals(lines: &[String]) -> Vec<u32> {
        let printed = String::from_utf8(look(&under_s(lines))).unwrap();
        let refusal = |line: &str| line.strip_prefix("refused=").map_or(0, |number| number.parse().unwrap());
        printed.lines().map(refusal).collect()
    }

    #[test]
    fn each_line_is_read_or_refused_as_named() {
        let texts = |lines: &[&str]| lines.iter().map(|line| line.to_string()).collect::<Vec<String>>();
        let made = |all: &[Made]| all.iter().map(line).collect::<Vec<String>>();
        let lists = [
            (made(&READ), 0),
            (texts(&REFUSED_1), 1),
            (texts(&REFUSED_2), 2),
            (texts(&REFUSED_3), 3),
            (texts(&REFUSED_4), 4),
            (made(&REFUSED_5), 5),
            (texts(&NO_PACKETS), 1),
        ];
        for (lines, refusal) in lists {
            assert_eq!(refusals(&lines), vec![refusal; lines.len()], "{refusal}");
        }
        assert_eq!(refusals(&about_the_longest()), [0, 1, 0, 1, 1, 1]);
    }
}
