//! Made sheets whose seats are easily taken for one another, or for nobody.

use crate::drafts::{replaced, Octets};
use crate::good;
use crate::random::Random;
use crate::sheet::{self, Sheet, SEATS, WIDTH};

/// The ways in which sheets are made.
const WAYS: [fn(&mut Random, &mut Sheet); 7] = [
    |_, _| (),
    |random, sheet| give_ssrc(random, sheet, 0),
    |_, sheet| take_ssrc_0(sheet),
    |random, sheet| give_ssrc(random, sheet, sheet.number("server")),
    make_ssrcs_alike,
    make_users_longer_and_longer,
    make_users_alike,
];

/// Gives some seat this SSRC, if none has it.
fn give_ssrc(random: &mut Random, sheet: &mut Sheet, ssrc: u32) {
    if sheet.seat_by_ssrc(ssrc).is_none() {
        sheet.ssrcs[random.below(sheet.rows())] = ssrc;
    }
}

/// Gives the seat that has SSRC 0 another.
fn take_ssrc_0(sheet: &mut Sheet) {
    let other = (1..).find(|ssrc| sheet.seat_by_ssrc(*ssrc).is_none());
    if let (Some(s), Some(other)) = (sheet.seat_by_ssrc(0), other) {
        sheet.ssrcs[s] = other;
    }
}

/// SSRCs that differ from one in one bit each, two in each octet.
fn make_ssrcs_alike(random: &mut Random, sheet: &mut Sheet) {
    let one = random.word();
    for s in 0..sheet.rows() {
        sheet.ssrcs[s] = one ^ 1 << (4 * s);
    }
}

fn give_users(sheet: &mut Sheet, mut user: impl FnMut(usize) -> Octets) {
    for s in 0..sheet.rows() {
        sheet.users[s] = sheet::row_of(&user(s)).expect("at most 60 octets");
    }
}

/// Octets of a User ID by chance.
fn visible(random: &mut Random, length: usize) -> Octets {
    (0..length).map(|_| random.within(0x21, 0x7E) as u8).collect()
}

/// User IDs of which each begins those that are longer; one octet is between one and the next.
fn make_users_longer_and_longer(random: &mut Random, sheet: &mut Sheet) {
    let longest = visible(random, WIDTH);
    let shortest = 1 + random.below(WIDTH + 1 - sheet.rows());
    let mut lengths: Vec<usize> = (shortest..shortest + sheet.rows()).collect();
    random.shuffle(&mut lengths);
    give_users(sheet, |s| longest[..lengths[s]].to_vec());
}

/// User IDs of 60 octets that are the same but for one.
fn make_users_alike(random: &mut Random, sheet: &mut Sheet) {
    let (user, at) = (visible(random, WIDTH), *random.pick(&[0, WIDTH / 2, WIDTH - 1]));
    give_users(sheet, |s| replaced(&user, at, b'a' + s as u8));
}

/// A sheet made in each way, with so many seats.
pub fn all(random: &mut Random, seats: usize) -> Vec<Sheet> {
    let mut made = |way: &fn(&mut Random, &mut Sheet)| {
        let mut sheet = good::sheet(random, seats);
        way(random, &mut sheet);
        sheet
    };
    WAYS.iter().map(&mut made).collect()
}

/// A sheet by chance.
pub fn any(random: &mut Random) -> Sheet {
    let seats = random.below(SEATS) + 1;
    let mut sheets = all(random, seats);
    sheets.swap_remove(random.below(WAYS.len()))
}

/// Sheets whose seats have User IDs of every length, each once.
pub fn of_every_length(random: &mut Random) -> Vec<Sheet> {
    let lengths: Vec<usize> = (1..=WIDTH).collect();
    let mut made = |some: &[usize]| {
        let mut sheet = good::sheet(random, some.len());
        give_users(&mut sheet, |s| visible(random, some[s]));
        sheet
    };
    lengths.chunks(SEATS).map(&mut made).collect()
}

#[cfg(test)]
mod tests {
    use super::*;

    #[test]
    fn made_sheets_are_good() {
        let random = &mut Random::new(1);
        for seats in 1..=SEATS {
            let sheets = all(random, seats);
            assert!(sheets.iter().all(|sheet| sheet.is_valid() && sheet.rows() == seats));
            assert!(sheets[1].seat_by_ssrc(0).is_some() && sheets[2].seat_by_ssrc(0).is_none());
            assert!(sheets[3].seat_by_ssrc(sheets[3].number("server")).is_some());
        }
    }

    #[test]
    fn users_of_every_length() {
        let sheets = of_every_length(&mut Random::new(1));
        assert!(sheets.iter().all(Sheet::is_valid));
        let users = sheets.iter().flat_map(|sheet| &sheet.users[..sheet.rows()]);
        assert_eq!(
            users.map(|row| sheet::name_in(row).len()).collect::<Vec<usize>>(),
            (1..=60).collect::<Vec<usize>>()
        );
    }
}
