//! The bench program `mcvlook`: its rules from document 01, and the whole inputs that it is compared on.

mod inputs;
mod lines;
mod make;
mod printed;
pub mod sample;
mod sample_lines;
mod sample_messages;
mod sheets;
mod stream;
mod tally;

use crate::drafts::Octets;
use crate::packet::Numbers;
use crate::sheet;

pub use make::make;
pub use stream::run;

/// What a refused sheet prints.
fn refused_sheet(line: u32) -> Octets {
    format!("sheet={line}\n").into_bytes()
}

/// What is printed for a whole input.
pub fn look(input: &[u8]) -> Octets {
    let (sheet, used) = match sheet::read(input) {
        Ok(read) => read,
        Err(line) => return refused_sheet(line),
    };
    let numbers = Numbers::on(&sheet);
    let mut out = vec![];
    for line in input[used..].split_inclusive(|octet| *octet == b'\n') {
        printed::push(&mut out, &numbers, line.strip_suffix(b"\n").unwrap_or(line));
    }
    out
}

#[cfg(test)]
mod tests {
    use super::*;
    use crate::bench::{s_with, PACKETS, S};

    /// What is printed for sheet S and what follows it.
    fn under_s(rest: &str) -> String {
        String::from_utf8(look([S, rest].concat().as_bytes())).unwrap()
    }

    #[test]
    fn the_example_of_document_01() {
        let printed = "kind=1 ssrc=2 ack=0 user=sip:b named=sip:a result=- cause=- indicator=- origin=- about=-\n\
            kind=2 ssrc=1000 ack=0 user=- named=- result=1 cause=- indicator=- origin=- about=-\n\
            refused=1\n";
        assert_eq!(look(&sample::example()), printed.as_bytes());
    }

    #[test]
    fn the_other_bench_packets() {
        let printed = "kind=2 ssrc=1000 ack=0 user=- named=- result=0 cause=0 indicator=- origin=- about=-\n\
            kind=5 ssrc=1000 ack=0 user=- named=- result=- cause=8 indicator=- origin=- about=-\n\
            kind=7 ssrc=1000 ack=0 user=- named=- result=- cause=- indicator=- origin=2 about=1\n";
        assert_eq!(under_s(&[PACKETS[1], PACKETS[3], PACKETS[4]].join("\n")), printed);
    }

    #[test]
    fn a_refused_sheet_and_nothing_more() {
        assert_eq!(look(b""), b"sheet=1\n");
        for (from, to, line) in [("limit=1", "limit=0", 2), ("ack=7", "ack=6", 9), ("resultid=20", "resultid=14", 10)] {
            let input = [&s_with(from, to), PACKETS[0], "\n"].concat();
            assert_eq!(look(input.as_bytes()), refused_sheet(line), "{to}");
        }
        assert_eq!(look(&S.as_bytes()[..S.len() - 1]), b"sheet=14\n");
    }

    #[test]
    fn lines_are_counted_by_their_lf() {
        let one = under_s(PACKETS[0]);
        assert_eq!(under_s(""), "");
        assert_eq!(under_s(&[PACKETS[0], "\n"].concat()), one);
        assert_eq!(under_s("\n"), "refused=1\n");
        assert_eq!(under_s(&["\n\n", PACKETS[0]].concat()), ["refused=1\nrefused=1\n", &one].concat());
        assert_eq!(under_s(&[PACKETS[0], "\n\n"].concat()), [&one, "refused=1\n"].concat());
        assert_eq!(under_s(&[PACKETS[0], "\r\n", PACKETS[0], "\r"].concat()), "refused=1\nrefused=1\n");
    }
}
