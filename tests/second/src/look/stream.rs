//! `mcvlook` over an input of any length. What it holds is bounded: the front that decides the sheet, one line up to
//! the first octet too many, what is printed for that line, and a buffer on either side.

use super::{printed, refused_sheet};
use crate::packet::{Numbers, LONGEST};
use crate::sheet::{self, KEYS, SEATS, WIDTH};
use std::io::{self, BufRead, BufReader, BufWriter, Read, Write};

const BUFFER: usize = 1 << 16;

/// Two digits an octet, and the LF.
const LONGEST_LINE: usize = 2 * LONGEST + 1;

/// How long a good line of a sheet can be: key, `=`, the greatest number, LF.
fn longest_line(key: &str) -> usize {
    let (_, greatest) = sheet::bounds(key);
    key.len() + 1 + greatest.len() + 1
}

/// How long a sheet can be; a seat's line has a comma and a User ID as well. No octet behind that many decides
/// whether an input begins with a sheet.
fn longest_sheet() -> usize {
    KEYS.iter().map(|key| longest_line(key)).sum::<usize>() + SEATS * (longest_line("seat") + 1 + WIDTH)
}

/// Takes the next line, and puts it into `line` without its LF; of one that is too long only a front that is too long
/// as well. False where the input has ended.
fn take_line(input: &mut impl BufRead, line: &mut Vec<u8>) -> io::Result<bool> {
    line.clear();
    let taken = input.by_ref().take(LONGEST_LINE as u64).read_until(b'\n', line)?;
    if line.last() == Some(&b'\n') {
        line.pop();
    } else if taken == LONGEST_LINE {
        input.skip_until(b'\n')?;
    }
    Ok(taken > 0)
}

/// Prints a line for each packet of the input, or the refusal of its sheet.
fn look(mut input: impl BufRead, mut out: impl Write) -> io::Result<()> {
    let mut front = vec![];
    input.by_ref().take(longest_sheet() as u64).read_to_end(&mut front)?;
    let (sheet, used) = match sheet::read(&front) {
        Ok(read) => read,
        Err(line) => return out.write_all(&refused_sheet(line)),
    };
    let numbers = Numbers::on(&sheet);
    let mut packets = front[used..].chain(input);
    let (mut line, mut printed) = (vec![], vec![]);
    while take_line(&mut packets, &mut line)? {
        printed.clear();
        printed::push(&mut printed, &numbers, &line);
        out.write_all(&printed)?;
    }
    Ok(())
}

/// Looks at standard input.
pub fn run() -> io::Result<()> {
    let mut out = BufWriter::with_capacity(BUFFER, io::stdout().lock());
    look(BufReader::with_capacity(BUFFER, io::stdin().lock()), &mut out)?;
    out.flush()
}

#[cfg(test)]
mod tests {
    use super::super::{look as whole, sample};
    use super::*;
    use crate::bench::S;
    use crate::good;

    /// What is printed where the input comes in pieces of this size.
    fn in_pieces(input: &[u8], size: usize) -> Vec<u8> {
        let mut out = vec![];
        look(BufReader::with_capacity(size, input), &mut out).unwrap();
        out
    }

    #[test]
    fn the_longest_sheet_is_as_long_as_that() {
        assert_eq!(longest_sheet(), good::longest().lines().concat().len());
        assert_eq!(longest_sheet(), 748);
    }

    #[test]
    fn pieces_of_every_size_print_the_same() {
        let long = [S.as_bytes(), &[b'0'; 5000], b"\n80\n", &[b'g'; 513], b"\n\n", &[b'0'; 600]].concat();
        for input in [sample::example(), good::longest().lines().concat(), long] {
            let expected = whole(&input);
            for size in 1..=input.len() + 1 {
                assert_eq!(in_pieces(&input, size), expected, "{size}");
            }
        }
    }

    #[test]
    fn every_sample_prints_the_same() {
        let every = sample::every();
        for size in [1, 2, 511, 512, 513, 514, 515, 4096, BUFFER] {
            assert_eq!(in_pieces(&every, size), whole(&every), "{size}");
        }
    }

    #[test]
    fn the_front_decides_the_sheet() {
        let text = good::longest().lines().concat();
        let too_long = |at: usize| [&text[..at], b"0", &text[at..]].concat();
        for input in [too_long(7), too_long(text.len() - 1), [&text[..], b"8", &[b'0'; 2000]].concat()] {
            assert_eq!(in_pieces(&input, BUFFER), whole(&input));
            assert_eq!(in_pieces(&input, 1), whole(&input));
        }
    }

    #[test]
    fn a_line_of_any_length_is_not_held() {
        let mut line = vec![];
        let input = [vec![b'0'; 100_000], b"\n8".to_vec()].concat();
        let mut input = &input[..];
        assert!(take_line(&mut input, &mut line).unwrap());
        assert_eq!((line.len(), input), (LONGEST_LINE, &b"8"[..]));
        assert!(line.capacity() < 10 * LONGEST_LINE);
        assert!(take_line(&mut input, &mut line).unwrap() && line == b"8");
        assert!(!take_line(&mut input, &mut line).unwrap());
    }
}
