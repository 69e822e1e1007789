//! Packets with faults: of every sort and in every place, or by chance.

use crate::drafts::{self, mend_length, replaced, Draft, Octets, EDGES, LETTERS};
use crate::packet::{HEAD, LONGEST};
use crate::random::Random;

/// Words that are a bad field at the end of a packet: their ID, their length or their padding is wrong.
const BAD_FIELDS: [[u8; 4]; 6] =
    [[192, 0, 0, 0], [255, 2, 0, 1], [1, 3, 0, 0], [1, 255, 0, 0], [0, 0, 0, 1], [0, 1, 0, 1]];

/// Packets with any other octet in one of the first two places.
pub fn with_other_first_octets(packet: &[u8]) -> Vec<Octets> {
    (0..=255).flat_map(|octet| [0, 1].map(|at| replaced(packet, at, octet))).collect()
}

/// Packets with another octet in one place.
pub fn with_other_octets(packet: &[u8]) -> Vec<Octets> {
    let mut packets = vec![];
    for (at, old) in packet.iter().enumerate() {
        let near = [old ^ 1, old ^ 0x80, old.wrapping_add(1), old.wrapping_sub(1), old.wrapping_add(4)];
        let octets = near.into_iter().chain([0, 1, 0x20, 0x7F, 191, 192, 0xFF]);
        packets.extend(octets.filter(|octet| octet != old).map(|octet| replaced(packet, at, octet)));
    }
    packets
}

/// Packets that say another length.
pub fn with_other_lengths(packet: &[u8]) -> Vec<Octets> {
    let words = packet.len() as u16 / 4;
    let lengths = [0, 1, 2, words - 2, words, words + 1, words + 255, words * 4, words << 8, words | 0x8000, 0xFFFF];
    let changed = |length: u16| [&packet[..2], &length.to_be_bytes(), &packet[4..]].concat();
    lengths.map(changed).to_vec()
}

/// Packets cut or lengthened, whose header says so or does not.
pub fn with_other_sizes(packet: &[u8]) -> Vec<Octets> {
    let size = packet.len();
    let mut sizes = vec![0, 1, 3, 4, 8, 11, HEAD, 13, 16, LONGEST - 4, LONGEST, LONGEST + 4, 1024];
    sizes.extend(size - HEAD..size + HEAD);
    let mut packets = vec![];
    for size in sizes {
        for octet in [0, 1, 0xFF] {
            let mut other = packet.to_vec();
            other.resize(size, octet);
            packets.push(other.clone());
            mend_length(&mut other);
            packets.push(other);
        }
    }
    packets
}

/// Takes away a field, or has one twice, or gives one another value.
fn spoil_content(random: &mut Random, draft: &mut Draft) {
    if draft.fields.is_empty() {
        return;
    }
    let at = random.below(draft.fields.len());
    match random.below(3) {
        0 => drop(draft.fields.remove(at)),
        1 => draft.fields.push(draft.fields[at].clone()),
        _ => draft.fields[at].1 = random.pick(&drafts::values()).clone(),
    }
}

/// Gives the packet other letters, or another number.
fn spoil_kind(random: &mut Random, draft: &mut Draft) {
    if random.once_in(2) {
        draft.letters = **random.pick(&LETTERS);
    } else {
        draft.number = random.below(16) as u8;
    }
}

/// Puts a bad field before or behind the others.
fn spoil_fields(random: &mut Random, packet: &mut Octets) {
    let at = *random.pick(&[HEAD, packet.len()]);
    packet.splice(at..at, *random.pick(&BAD_FIELDS));
    mend_length(packet);
}

/// Changes version, padding bit, type or length.
fn spoil_head(random: &mut Random, packet: &mut [u8]) {
    let bits = [(0, 0x80), (0, 0x40), (0, 0x20), (1, 1), (1, 0x80), (2, 1), (3, 1), (3, 2)];
    let (at, bit) = *random.pick(&bits);
    if let Some(octet) = packet.get_mut(at) {
        *octet ^= bit;
    }
}

/// Makes the size wrong, or at least another.
fn spoil_size(random: &mut Random, packet: &mut Octets) {
    let size = match random.below(4) {
        0 => packet.len() + 1 + random.below(3),
        1 => packet.len() - 1 - random.below(3),
        2 => LONGEST + 4 * random.below(3),
        _ => 4 * random.below(4),
    };
    packet.resize(size, 0);
}

/// The draft's packet with a set of faults: bit 0 is for refusal 1, and so on up to 5.
pub fn with_faults(random: &mut Random, draft: &Draft, set: u32) -> Octets {
    let mut draft = draft.clone();
    if set & 16 != 0 {
        spoil_content(random, &mut draft);
    }
    if set & 4 != 0 {
        spoil_kind(random, &mut draft);
    }
    let mut packet = draft.octets();
    if set & 8 != 0 {
        spoil_fields(random, &mut packet);
    }
    if set & 2 != 0 {
        spoil_head(random, &mut packet);
    }
    if set & 1 != 0 {
        spoil_size(random, &mut packet);
    }
    packet
}

/// Changes an octet, the length that the header says, or the size.
pub fn damage(random: &mut Random, packet: &mut Octets) {
    if packet.len() < HEAD {
        return;
    }
    let at = random.below(packet.len());
    match random.below(8) {
        0 => spoil_head(random, packet),
        1 => spoil_size(random, packet),
        2 => {
            packet.truncate(HEAD + at / 4 * 4);
            mend_length(packet);
        }
        3 => {
            packet.extend((0..4).map(|_| *random.pick(EDGES)));
            mend_length(packet);
        }
        4 => packet[at] = random.octet(),
        _ => packet[at] = *random.pick(EDGES),
    }
}

/// Octets by chance behind a header that is right at times.
pub fn noise(random: &mut Random, draft: &Draft) -> Octets {
    let mut packet = draft.with(vec![]).octets();
    let length = if random.once_in(4) { random.below(300) } else { 4 * random.below(10) };
    let telling = random.once_in(2);
    packet.extend((0..length).map(|_| if telling { random.below(8) as u8 } else { random.octet() }));
    mend_length(&mut packet);
    if random.once_in(4) {
        packet.drain(..random.below(HEAD));
    }
    packet
}
