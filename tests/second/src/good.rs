//! Good sheets of any size, with numbers at the edges and names that are easily taken for one another.

use crate::random::Random;
use crate::sheet::{self, Sheet, KEYS, MCV2, SEATS, WIDTH};

pub fn number(random: &mut Random, key: &str) -> u32 {
    let (least, greatest) = sheet::bounds(key);
    let (least, greatest) = (least.parse().unwrap(), greatest.parse().unwrap());
    match random.below(4) {
        0 => least,
        1 => greatest,
        _ => random.within(least, greatest),
    }
}

/// A User ID: of one letter, of letters that look like a sheet, or of any visible octets.
pub fn name(random: &mut Random) -> Vec<u8> {
    let length = match random.below(6) {
        0 => WIDTH,
        1 => WIDTH - 1,
        2 => random.below(WIDTH) + 1,
        _ => random.below(6) + 1,
    };
    let letters: Vec<u8> = match random.below(3) {
        0 => vec![*random.pick(b"ax~!")],
        1 => b"seat=,0123456789:@".to_vec(),
        _ => (0x21..=0x7E).collect(),
    };
    (0..length).map(|_| *random.pick(&letters)).collect()
}

fn ssrcs(random: &mut Random, server: u32) -> Vec<u32> {
    let mut ssrcs = vec![0, 1, 9, 10, server, 65536, 1 << 31, u32::MAX - 1, u32::MAX];
    ssrcs.extend((0..SEATS).map(|_| random.word()));
    ssrcs.sort();
    ssrcs.dedup();
    random.shuffle(&mut ssrcs);
    ssrcs
}

pub fn sheet(random: &mut Random, seats: usize) -> Sheet {
    let mut sheet = Sheet::ZERO;
    for key in KEYS {
        sheet.set(key, number(random, key));
    }
    let mut numbers: Vec<u32> = (0..16).collect();
    random.shuffle(&mut numbers);
    for (key, number) in MCV2.iter().zip(numbers) {
        sheet.set(key, number);
    }
    sheet.set("seats", seats as u32);
    let ssrcs = ssrcs(random, sheet.number("server"));
    sheet.ssrcs[..seats].copy_from_slice(&ssrcs[..seats]);
    for s in 0..seats {
        while sheet.users[s] == [0; WIDTH] || sheet.users[..s].contains(&sheet.users[s]) {
            sheet.users[s] = sheet::row_of(&name(random)).unwrap();
        }
    }
    sheet
}

/// The sheet with the longest text.
pub fn longest() -> Sheet {
    let mut sheet = Sheet::ZERO;
    sheet.numbers = [u32::MAX, 8, 15, 15, 10, 11, 12, 13, 14, 191, 8];
    for s in 0..SEATS {
        sheet.ssrcs[s] = u32::MAX - s as u32;
        sheet.users[s] = [b'~'; WIDTH];
        sheet.users[s][WIDTH - 1] = b'a' + s as u8;
    }
    sheet
}
