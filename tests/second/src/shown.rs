//! Cases and answers for a person to read.

use crate::sheet::{self, Row, Sheet, KEYS, SEATS, WIDTH};
use crate::wire::{take_number, Case, WRITTEN};

fn take_sheet(octets: &mut &[u8]) -> Option<Sheet> {
    let mut sheet = Sheet::ZERO;
    for k in 0..KEYS.len() {
        sheet.numbers[k] = take_number(octets)?;
    }
    for s in 0..SEATS {
        sheet.ssrcs[s] = take_number(octets)?;
    }
    for s in 0..SEATS {
        let (row, rest) = octets.split_first_chunk::<WIDTH>()?;
        sheet.users[s] = *row;
        *octets = rest;
    }
    Some(sheet)
}

fn shown_row(row: &Row) -> String {
    sheet::name_in(row).escape_ascii().to_string()
}

pub fn shown_sheet(sheet: &Sheet) -> String {
    let users: Vec<String> = sheet.users.iter().map(shown_row).collect();
    format!("numbers {:?} ssrcs {:?} users {users:?}", sheet.numbers, sheet.ssrcs)
}

/// What a case asks.
pub fn case(case: &Case) -> String {
    match case {
        Case::Read(text) => format!("read \"{}\"", text.escape_ascii()),
        Case::Valid(sheet) => format!("valid {}", shown_sheet(sheet)),
        Case::BySsrc(sheet, ssrc) => format!("by_ssrc {ssrc} in {}", shown_sheet(sheet)),
        Case::ByUser(sheet, name) => format!("by_user \"{}\" in {}", name.escape_ascii(), shown_sheet(sheet)),
        Case::UserId(name) => format!("is_user_id \"{}\"", name.escape_ascii()),
        Case::Packets(sheet, packets) => {
            let packets: Vec<String> = packets.iter().map(|packet| hex(packet)).collect();
            format!("packets {} under numbers {:?} ssrcs {:?}", packets.join(" "), sheet.numbers, sheet.ssrcs)
        }
        Case::Fields(octets, places) => format!("fields at {places:?} of {}", hex(octets)),
        Case::Write(sheet, message, names, room) => {
            let (numbers, ssrcs, names) = (sheet.numbers, sheet.ssrcs, names.escape_ascii());
            format!("write {message:?} into {room} octets under numbers {numbers:?} ssrcs {ssrcs:?}, names \"{names}\"")
        }
    }
}

pub fn hex(octets: &[u8]) -> String {
    octets.iter().map(|octet| format!("{octet:02X}")).collect()
}

/// An answer's octets, as the answer to such a case.
pub fn answer(case: &Case, body: &[u8]) -> String {
    match case {
        Case::Read(_) => shown_reading(body).unwrap_or(format!("{body:?}")),
        Case::Packets(..) => numbers(body, 4),
        Case::Fields(..) => numbers(body, 8),
        Case::Write(..) => {
            let (written, rest) = body.split_at(WRITTEN.min(body.len()));
            format!("{} {}", numbers(written, 4), hex(rest))
        }
        _ => format!("{body:?}"),
    }
}

/// Numbers of so many octets each.
fn numbers(octets: &[u8], width: usize) -> String {
    let number_of = |octets: &[u8]| octets.iter().fold(0, |number, octet| number << 8 | u64::from(*octet));
    format!("{:?}", octets.chunks(width).map(number_of).collect::<Vec<u64>>())
}

fn shown_reading(mut body: &[u8]) -> Option<String> {
    let sheet = shown_sheet(&take_sheet(&mut body)?);
    let (high, low) = (take_number(&mut body)?, take_number(&mut body)?);
    let (refusal, line) = (take_number(&mut body)?, take_number(&mut body)?);
    Some(format!("refusal {refusal} line {line} used {} {sheet}", (u64::from(high) << 32) + u64::from(low)))
}
