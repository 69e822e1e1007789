//! Made lines of packets: hex of either case, and lines that are no packet.

use crate::drafts::{mend_length, Octets};
use crate::packet::{kinds, LONGEST};
use crate::packets;
use crate::random::Random;
use crate::sheet::Sheet;
use crate::shown;

/// What stands in a line that is not hex: octets next to the digits, digits with their high bit set, signs that other
/// readers of hex skip, and ends of a line that are none.
const NOT_HEX: [&[u8]; 28] = [
    b"/", b":", b"@", b"G", b"`", b"g", b"x", b"0x", b"0X", b"\\x", b"h", b" ", b"\t", b"\r", b"\0", b"\x0b", b"\x1a",
    b"\x7f", b"\x80", b"\xb0", b"\xc1", b"\xe6", b"\xff", b"\xef\xbb\xbf", b"-", b"+", b"_", b"#",
];

/// How many digits lines have about the edges of packets: of the shortest and of the longest.
const EDGES: [usize; 21] = [1, 2, 4, 8, 22, 23, 24, 25, 26, 32, 504, 506, 508, 510, 511, 512, 513, 514, 515, 516, 1024];

/// How many digits long lines have at least and at most, and numbers that buffers may have the size of.
const LONG: (u32, u32) = (5_000, 100_000);
const BUFFERS: [usize; 6] = [1024, 4096, 8192, 16_384, 32_768, 65_536];

/// Octets as hex digits: upper, lower or mixed case.
fn hex(random: &mut Random, packet: &[u8]) -> Octets {
    let upper = shown::hex(packet).into_bytes();
    match random.below(3) {
        0 => upper,
        1 => upper.to_ascii_lowercase(),
        _ => upper.iter().map(|digit| if random.once_in(2) { digit.to_ascii_lowercase() } else { *digit }).collect(),
    }
}

/// A good packet of any kind.
fn good(random: &mut Random, sheet: &Sheet) -> Octets {
    let kind = random.within(*kinds().start(), *kinds().end());
    packets::mixed(random, sheet, kind).octets()
}

/// A good packet with words of zeros behind it, up to so many octets; what does not fit is cut.
fn of_size(random: &mut Random, sheet: &Sheet, octets: usize) -> Octets {
    let mut packet = good(random, sheet);
    packet.resize(octets, 0);
    mend_length(&mut packet);
    packet
}

/// A line of so many digits, which begin as a good packet does.
fn of_digits(random: &mut Random, sheet: &Sheet, digits: usize) -> Octets {
    let packet = of_size(random, sheet, digits.div_ceil(2));
    let mut line = hex(random, &packet);
    line.truncate(digits);
    line
}

/// A long line by chance, without its LF.
pub fn long(random: &mut Random, sheet: &Sheet) -> Octets {
    let digits = match random.below(2) {
        0 => random.within(LONG.0, LONG.1) as usize,
        _ => *random.pick(&BUFFERS) + random.below(5) - 2,
    };
    let mut line = of_digits(random, sheet, digits);
    if random.once_in(3) {
        spoil(random, &mut line);
    }
    line
}

/// A place in a line: its front, its end, or any.
fn place(random: &mut Random, line: &[u8]) -> usize {
    let any = random.below(line.len() + 1);
    *random.pick(&[0, line.len(), any])
}

/// Puts into a line what makes it not hex, in the place of something or between.
fn spoil(random: &mut Random, line: &mut Octets) {
    let at = place(random, line);
    let sign = *random.pick(&NOT_HEX);
    let end = if random.once_in(2) { at } else { line.len().min(at + sign.len()) };
    line.splice(at..end, sign.iter().copied());
}

/// Takes a digit away, or puts one more.
fn make_odd(random: &mut Random, line: &mut Octets) {
    let at = place(random, line);
    if at < line.len() && random.once_in(2) {
        line.remove(at);
    } else {
        line.insert(at, *random.pick(b"0fF"));
    }
}

/// Octets by chance, of which some may be LF.
fn noise(random: &mut Random) -> Octets {
    let most = *random.pick(&[4, 40, 600]);
    (0..random.below(most)).map(|_| random.octet()).collect()
}

/// A line by chance, without its LF.
pub fn any(random: &mut Random, sheet: &Sheet) -> Octets {
    let packet = if random.once_in(2) { good(random, sheet) } else { packets::any(random, sheet) };
    let mut line = hex(random, &packet);
    match random.below(24) {
        0 => line.clear(),
        1 => line.push(b'\r'),
        2 | 3 => spoil(random, &mut line),
        4 => make_odd(random, &mut line),
        5 => line = noise(random),
        6 => {
            let digits = *random.pick(&EDGES);
            line = of_digits(random, sheet, digits);
        }
        7 => line = of_digits(random, sheet, 2 * LONGEST),
        _ => (),
    }
    line
}
