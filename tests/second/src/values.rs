//! Made values, good and spoilt in each place, and searches in them.

use crate::good;
use crate::random::Random;
use crate::sheet::{self, Sheet, KEYS, MCV2, SEATS, WIDTH};
use crate::wire::Case;

/// The value with one change.
fn but(sheet: &Sheet, change: impl FnOnce(&mut Sheet)) -> Sheet {
    let mut other = sheet.clone();
    change(&mut other);
    other
}

/// Values with another number in one place, at and about its bounds and those of a word.
fn with_other_numbers(sheet: &Sheet) -> Vec<Sheet> {
    let mut values = vec![];
    for key in KEYS {
        let (least, greatest) = sheet::bounds(key);
        let (least, greatest): (u32, u32) = (least.parse().unwrap(), greatest.parse().unwrap());
        let mut numbers =
            vec![least.wrapping_sub(1), least, greatest, greatest.wrapping_add(1), 255, 256, 65536, 1 << 31, u32::MAX];
        numbers.extend(0..18);
        numbers.extend([sheet.number(key).wrapping_sub(1), sheet.number(key).wrapping_add(1)]);
        values.extend(numbers.into_iter().map(|n| but(sheet, |other| other.set(key, n))));
    }
    for a in MCV2 {
        values.extend(MCV2.map(|b| but(sheet, |other| other.set(a, sheet.number(b)))));
    }
    values
}

/// Values with another SSRC in one row, used or not.
fn with_other_ssrcs(sheet: &Sheet) -> Vec<Sheet> {
    let mut values = vec![];
    for s in 0..SEATS {
        let mut ssrcs = sheet.ssrcs.to_vec();
        ssrcs.extend([0, 1, 256, 65536, 1 << 31, u32::MAX]);
        values.extend(ssrcs.into_iter().map(|ssrc| but(sheet, |other| other.ssrcs[s] = ssrc)));
    }
    values
}

/// Values with another number or another SSRC in one place.
pub fn with_other_numbers_or_ssrcs(sheet: &Sheet) -> Vec<Sheet> {
    [with_other_numbers(sheet), with_other_ssrcs(sheet)].concat()
}

/// Values with another User ID in one row, used or not: one octet changed, or all of it.
fn with_other_users(sheet: &Sheet) -> Vec<Sheet> {
    let mut values = vec![];
    for s in 0..SEATS {
        let length = sheet::name_in(&sheet.users[s]).len();
        for at in [0, length / 2, length.saturating_sub(1), length, length + 1, WIDTH - 1] {
            for octet in [0, 1, 0x0A, 0x20, 0x21, 0x2C, 0x7E, 0x7F, 0x80, 0xFF] {
                values.push(but(sheet, |other| other.users[s][at.min(WIDTH - 1)] = octet));
            }
        }
        values.extend(sheet.users.map(|row| but(sheet, |other| other.users[s] = row)));
        values.extend([0, b' ', b'u', 0xFF].map(|octet| but(sheet, |other| other.users[s] = [octet; WIDTH])));
    }
    values
}

/// Values with one change anywhere.
pub fn with_one_change(sheet: &Sheet) -> Vec<Sheet> {
    [with_other_numbers_or_ssrcs(sheet), with_other_users(sheet)].concat()
}

/// A value and every way in which it is spoilt, or nearly so.
pub fn systematic(random: &mut Random) -> Vec<Sheet> {
    let ones = Sheet { numbers: [u32::MAX; KEYS.len()], ssrcs: [u32::MAX; SEATS], users: [[0xFF; WIDTH]; SEATS] };
    let mut values = vec![Sheet::ZERO, ones, good::longest()];
    for seats in 1..=SEATS {
        let sheet = good::sheet(random, seats);
        values.extend(with_one_change(&sheet));
        values.push(sheet);
    }
    values
}

/// The value spoilt in one place, or nearly so.
pub fn spoilt(random: &mut Random, sheet: &Sheet) -> Sheet {
    let others = match random.below(3) {
        0 => with_other_numbers(sheet),
        1 => with_other_ssrcs(sheet),
        _ => with_other_users(sheet),
    };
    random.pick(&others).clone()
}

/// A good value, or one that is spoilt in one or two places.
pub fn any(random: &mut Random) -> Sheet {
    let seats = random.below(SEATS) + 1;
    let mut sheet = good::sheet(random, seats);
    for _ in 0..random.below(3) {
        sheet = spoilt(random, &sheet);
    }
    sheet
}

/// Names that are, or are easily taken for, those of a sheet.
pub fn names_to_find(random: &mut Random, sheet: &Sheet) -> Vec<Vec<u8>> {
    let mut names = vec![vec![], vec![0], vec![0; WIDTH], vec![b' '], good::name(random)];
    for row in &sheet.users {
        let name = sheet::name_in(row).to_vec();
        if let [first, .., last] = name[..] {
            names.extend([name[1..].to_vec(), name[..name.len() - 1].to_vec(), vec![first], vec![last]]);
        }
        for tail in [&b"\0"[..], b"x", b"\0x", b" ", b"\n"] {
            names.push([&name, tail].concat());
        }
        names.extend([
            row.to_vec(),
            [&row[..], b"x"].concat(),
            name.to_ascii_uppercase(),
            [&name[..], &name].concat(),
            name,
        ]);
    }
    names
}

/// SSRCs that are, or are easily taken for, those of a sheet.
pub fn ssrcs_to_find(random: &mut Random, sheet: &Sheet) -> Vec<u32> {
    let mut ssrcs = vec![0, 1, u32::MAX, random.word()];
    ssrcs.extend(sheet.ssrcs.iter().flat_map(|n| [*n, n.wrapping_add(1), n.swap_bytes(), n & 0xFFFF]));
    ssrcs
}

/// Every search in a sheet, by the SSRCs and the User IDs of all rows and by others.
fn searches(random: &mut Random, sheet: &Sheet) -> Vec<Case> {
    let ssrcs = ssrcs_to_find(random, sheet);
    let mut cases: Vec<Case> = ssrcs.into_iter().map(|ssrc| Case::BySsrc(sheet.clone(), ssrc)).collect();
    cases.extend(names_to_find(random, sheet).into_iter().map(|name| Case::ByUser(sheet.clone(), name)));
    cases
}

/// A sheet to search in; at times the count of seats is another, so that filled rows are off the sheet.
fn sheet_to_search(random: &mut Random) -> Sheet {
    let seats = random.below(SEATS) + 1;
    let sheet = good::sheet(random, seats);
    let other = match random.below(6) {
        0 => random.below(seats + 1) as u32,
        1 if seats == SEATS => *random.pick(&[9, 255, 256, 257, 1 << 31, u32::MAX]),
        _ => seats as u32,
    };
    let (from, to) = (random.below(seats), random.below(seats));
    let alike = random.below(4) == 0;
    but(&sheet, |sheet| {
        sheet.set("seats", other);
        if alike {
            sheet.ssrcs[to] = sheet.ssrcs[from];
            sheet.users[to] = sheet.users[from];
        }
    })
}

/// One search of many in a sheet.
pub fn any_search(random: &mut Random) -> Case {
    let sheet = sheet_to_search(random);
    let mut cases = searches(random, &sheet);
    cases.swap_remove(random.below(cases.len()))
}

/// All searches in a sheet of each size, and in one whose count of seats is too large.
pub fn systematic_searches(random: &mut Random) -> Vec<Case> {
    let mut cases = vec![];
    for seats in 1..=SEATS {
        let sheet = good::sheet(random, seats);
        for fewer in 0..=seats {
            let sheet = but(&sheet, |sheet| sheet.set("seats", fewer as u32));
            cases.extend(searches(random, &sheet));
        }
    }
    for more in [9, 256, 257, u32::MAX] {
        let sheet = but(&good::longest(), |sheet| sheet.set("seats", more));
        cases.extend(searches(random, &sheet));
    }
    let alike = but(&good::longest(), |sheet| {
        sheet.ssrcs[SEATS - 1] = sheet.ssrcs[0];
        sheet.users[SEATS - 1] = sheet.users[0];
    });
    cases.extend(searches(random, &alike));
    cases
}

/// Octets that may be a User ID: of each length, and with each octet in each place that matters.
pub fn systematic_names() -> Vec<Vec<u8>> {
    let mut names: Vec<Vec<u8>> =
        (0..=130).chain([255, 256, 257, 316, 4096, 60000]).map(|length| vec![b'u'; length]).collect();
    for octet in 0..=255 {
        names.push(vec![octet]);
        for at in [0, 30, 58, 59] {
            let mut long = [b'u'; WIDTH];
            long[at] = octet;
            names.push(long.to_vec());
        }
    }
    names
}

pub fn any_name(random: &mut Random) -> Vec<u8> {
    let mut name = good::name(random);
    if random.once_in(2) {
        let at = random.below(name.len());
        name[at] = random.octet();
    }
    if random.once_in(4) {
        name.extend(good::name(random));
    }
    name
}
