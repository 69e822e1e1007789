//! Octets of any length, and places in and about them, for the field step.

use crate::drafts::{Octets, EDGES};
use crate::packet::HEAD;
use crate::packets;
use crate::random::Random;
use crate::wire::{self, Case};

/// Places that are far beyond any packet, some of them good ones but for a high bit.
const FAR: [u64; 12] = [
    1 << 8,
    (1 << 8) + HEAD as u64,
    1 << 16,
    (1 << 16) + HEAD as u64,
    1 << 31,
    1 << 32,
    (1 << 32) + HEAD as u64,
    1 << 63,
    (1 << 63) + HEAD as u64,
    u64::MAX - 11,
    u64::MAX - 3,
    u64::MAX,
];

/// Every place that matters: about the header, on each word, about the end, and far beyond.
fn all(octets: &[u8]) -> Vec<u64> {
    let length = octets.len() as u64;
    let mut places: Vec<u64> = (0..=20).chain((24..length + 12).step_by(4)).collect();
    places.extend((length.saturating_sub(6)..=length + 4).filter(|place| place % 4 != 0));
    places.extend(FAR);
    places
}

/// Makes the front of octets the header of a packet as long as they are, where they have room for it.
fn put_head(random: &mut Random, octets: &mut Octets) {
    let words = (octets.len() / 4).saturating_sub(1) as u16;
    let front = [vec![0x80 | random.octet() & 0x1F, 204], words.to_be_bytes().to_vec()].concat();
    if let Some(head) = octets.get_mut(..front.len()) {
        head.copy_from_slice(&front);
    }
}

/// Octets that are fields for the most part, of any length, behind a header of theirs or any other.
fn fields(random: &mut Random, length: usize) -> Octets {
    let mut octets: Octets = (0..HEAD).map(|_| random.octet()).collect();
    while octets.len() < length {
        let count = random.below(9);
        octets.extend([random.within(0, 193) as u8, count as u8]);
        octets.extend((0..count).map(|_| random.octet()));
        octets.resize(octets.len().next_multiple_of(4), 0);
    }
    octets.truncate(length);
    if random.below(2) == 0 {
        put_head(random, &mut octets);
    }
    octets
}

/// Octets by chance: fields, numbers that may be a length, or any.
pub fn any_octets(random: &mut Random) -> Octets {
    let length = random.below(301);
    match random.below(4) {
        0 => (0..length).map(|_| random.octet()).collect(),
        1 => (0..length).map(|_| *random.pick(EDGES)).collect(),
        2 => fields(random, length),
        _ => packets::one(random),
    }
}

/// A place by chance, a good one for the most part.
pub fn any_place(random: &mut Random, octets: &[u8]) -> u64 {
    let length = octets.len();
    match random.below(6) {
        0 => random.below(length + 20) as u64,
        1 => *random.pick(&FAR),
        2 => (length + random.below(3) * 4) as u64,
        _ => 4 * random.below(length / 4 + 1) as u64,
    }
}

/// One field behind a header, so many octets in all.
fn one_field(id: u8, length: u8, size: usize) -> Octets {
    let mut octets = vec![0; HEAD];
    octets.extend([id, length]);
    octets.resize(octets.len() + length as usize, b'f');
    octets.resize(size, 0);
    octets
}

/// A field of each ID; of each length, where the octets end about the end of its padding; and with each octet of
/// its padding changed.
fn single_fields(random: &mut Random) -> Vec<Octets> {
    let mut all: Vec<Octets> = (0..=255).map(|id| one_field(id, 1, HEAD + 4)).collect();
    for length in 0..=255 {
        let value_end = HEAD + 2 + length as usize;
        let end = value_end.next_multiple_of(4);
        let id = random.within(0, 191) as u8;
        all.extend((value_end - 2..=end + 4).map(|size| one_field(id, length, size)));
        for at in value_end..end {
            let mut octets = one_field(id, length, end);
            octets[at] = *random.pick(&[1, 0x80, 0xFF]);
            all.push(octets);
        }
    }
    all
}

/// All places in octets of each length and in packets; and where there is but one field, its place and the end.
pub fn systematic(random: &mut Random) -> Vec<Case> {
    let mut cases = vec![];
    for length in 0..=300 {
        for octets in [fields(random, length), packets::one(random)] {
            cases.extend(wire::field_cases(&octets, &all(&octets)));
        }
    }
    for octets in single_fields(random) {
        let places = vec![HEAD as u64, octets.len() as u64];
        cases.push(Case::Fields(octets, places));
    }
    cases
}

/// Some places in octets by chance.
pub fn some(random: &mut Random) -> Case {
    let octets = any_octets(random);
    let places = (0..4).map(|_| any_place(random, &octets)).collect();
    Case::Fields(octets, places)
}
