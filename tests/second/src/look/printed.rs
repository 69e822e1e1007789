//! The line that is printed for a line of the input.

use crate::drafts::Octets;
use crate::packet::{Message, Numbers, LONGEST};
use std::ops::Range;

/// What each octet is worth as a hex digit of either case; `NO_DIGIT` where it is none.
const WORTH: [u8; 256] = worth();
const NO_DIGIT: u8 = 16;

const fn worth() -> [u8; 256] {
    let (mut worth, mut digit) = ([NO_DIGIT; 256], 0);
    while digit < 16 {
        worth[b"0123456789ABCDEF"[digit] as usize] = digit as u8;
        worth[b"0123456789abcdef"[digit] as usize] = digit as u8;
        digit += 1;
    }
    worth
}

/// The octets that a line writes in hex; none where it is not hex, odd, empty, or above 512 digits.
fn packet_on<'a>(line: &[u8], room: &'a mut [u8; LONGEST]) -> Option<&'a [u8]> {
    if line.is_empty() || !line.len().is_multiple_of(2) {
        return None;
    }
    let octets = room.get_mut(..line.len() / 2)?;
    for (octet, pair) in octets.iter_mut().zip(line.chunks_exact(2)) {
        let (high, low) = (WORTH[usize::from(pair[0])], WORTH[usize::from(pair[1])]);
        if high == NO_DIGIT || low == NO_DIGIT {
            return None;
        }
        *octet = high << 4 | low;
    }
    Some(octets)
}

fn push_number(out: &mut Octets, number: u32) {
    let start = out.len();
    let mut rest = number;
    while rest >= 10 {
        out.push(b'0' + (rest % 10) as u8);
        rest /= 10;
    }
    out.push(b'0' + rest as u8);
    out[start..].reverse();
}

/// A value behind its key: a number in decimal, or `-` where there is none.
fn push_value(out: &mut Octets, key: &[u8], number: Option<impl Into<u32>>) {
    out.extend_from_slice(key);
    match number {
        Some(number) => push_number(out, number.into()),
        None => out.push(b'-'),
    }
}

/// A name of the packet behind its key, or `-` where there is none.
fn push_name(out: &mut Octets, key: &[u8], packet: &[u8], name: Option<Range<usize>>) {
    out.extend_from_slice(key);
    out.extend_from_slice(name.map_or(b"-", |name| &packet[name]));
}

/// The ten values of a packet's message.
fn push_message(out: &mut Octets, packet: &[u8], message: Message) {
    push_value(out, b"kind=", Some(message.kind));
    push_value(out, b" ssrc=", Some(message.ssrc));
    push_value(out, b" ack=", Some(message.ack));
    push_name(out, b" user=", packet, message.user);
    push_name(out, b" named=", packet, message.named);
    push_value(out, b" result=", message.result);
    push_value(out, b" cause=", message.cause);
    push_value(out, b" indicator=", message.indicator);
    push_value(out, b" origin=", message.source);
    push_value(out, b" about=", message.about);
}

/// Puts behind `out` what is printed for a line, which comes without its LF.
pub fn push(out: &mut Octets, numbers: &Numbers, line: &[u8]) {
    let mut room = [0; LONGEST];
    let packet = packet_on(line, &mut room).unwrap_or(&[]);
    match numbers.read(packet) {
        Ok(message) => push_message(out, packet, message),
        Err(refusal) => push_value(out, b"refused=", Some(refusal)),
    }
    out.push(b'\n');
}

#[cfg(test)]
mod tests {
    use super::super::sample::filled;
    use super::*;
    use crate::bench::{sheet_s, PACKETS};

    fn printed(line: &[u8]) -> String {
        let mut out = vec![];
        push(&mut out, &Numbers::on(&sheet_s()), line);
        String::from_utf8(out).unwrap()
    }

    #[test]
    fn either_case() {
        for line in PACKETS {
            let (upper, lower) = (line.as_bytes(), line.to_ascii_lowercase());
            let mixed = [&upper[..9], &lower.as_bytes()[9..]].concat();
            assert!(printed(upper).starts_with("kind="));
            assert_eq!([printed(lower.as_bytes()), printed(&mixed)], [printed(upper), printed(upper)]);
        }
    }

    #[test]
    fn digits_are_those_of_hex() {
        for octet in 0..=255 {
            let line = [PACKETS[0].as_bytes(), b"000000", &[octet, b'0']].concat();
            let is_hex = char::from(octet).is_ascii_hexdigit();
            assert_eq!(packet_on(&line, &mut [0; LONGEST]).is_some(), is_hex, "{octet}");
        }
    }

    #[test]
    fn lines_that_are_no_packet() {
        let line = PACKETS[0];
        let spoilt = ["", "8", &line[1..], &line[..31], " ", "  "].map(String::from).to_vec();
        let signs = ["\r", " ", "\t", "0x", "0X", "x", "+", "\0", "é", "#"];
        let signed = signs.iter().flat_map(|sign| [[sign, line].concat(), [line, sign].concat()]);
        let inside = signs.iter().map(|sign| [&line[..8], sign, &line[8..]].concat());
        for line in spoilt.into_iter().chain(signed).chain(inside) {
            assert_eq!(printed(line.as_bytes()), "refused=1\n", "{line:?}");
        }
    }

    #[test]
    fn at_most_512_digits() {
        assert_eq!((filled(252).len(), filled(256).len()), (504, 512));
        assert!(printed(filled(252).as_bytes()).starts_with("kind=6 "));
        assert!(printed(filled(256).as_bytes()).starts_with("kind=6 "));
        for more in ["0", "00", "0000", &"0".repeat(100_000 - 512)] {
            assert_eq!(printed([&filled(256), more].concat().as_bytes()), "refused=1\n", "{}", more.len());
        }
    }

    #[test]
    fn numbers_in_decimal() {
        for number in [0, 1, 9, 10, 11, 99, 100, 65535, 1_000_000_000, u32::MAX] {
            let mut out = vec![];
            push_number(&mut out, number);
            assert_eq!(out, number.to_string().as_bytes());
        }
    }
}
