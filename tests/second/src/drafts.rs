//! Packets in their parts, so that each part can be another, and good ones of every kind.

use crate::good;
use crate::packet::{INDICATED, INDICATOR, MESSAGES, MESSAGE_TYPE, REJECT_CAUSE, SOURCE, USER_ID};
use crate::random::Random;
use crate::sheet::Sheet;

pub type Octets = Vec<u8>;

/// Octets at and about the edges of all that an octet can mean in a packet.
pub const EDGES: &[u8] = &[0, 1, 2, 0x20, 0x21, 0x7E, 0x7F, 0x80, 0xFF];

/// Letters of all kinds, and such as are easily taken for them.
pub const LETTERS: [&[u8; 4]; 9] =
    [b"MCV0", b"MCV1", b"MCV2", b"MCV3", b"mcv0", b"MCV\0", b"0VCM", b"MCP1", b"\0\0\0\0"];

/// A field: its ID and its value.
#[derive(Clone)]
pub struct Part(pub u8, pub Octets);

/// A packet whose octets are yet to be laid out.
#[derive(Clone)]
pub struct Draft {
    pub ack: bool,
    pub number: u8,
    pub ssrc: u32,
    pub letters: [u8; 4],
    pub fields: Vec<Part>,
}

/// The list with another element in one place.
pub fn replaced<T: Clone>(list: &[T], at: usize, element: T) -> Vec<T> {
    let mut other = list.to_vec();
    other[at] = element;
    other
}

/// The list with one element more.
pub fn inserted<T: Clone>(list: &[T], at: usize, element: T) -> Vec<T> {
    let mut other = list.to_vec();
    other.insert(at, element);
    other
}

/// Puts the length that the octets have into their header, if they have one.
pub fn mend_length(octets: &mut [u8]) {
    let words = (octets.len() / 4).saturating_sub(1) as u16;
    if let Some(length) = octets.get_mut(2..4) {
        length.copy_from_slice(&words.to_be_bytes());
    }
}

impl Draft {
    pub fn octets(&self) -> Octets {
        let mut octets = vec![0x80 | u8::from(self.ack) << 4 | self.number, 204, 0, 0];
        octets.extend(self.ssrc.to_be_bytes());
        octets.extend(self.letters);
        for Part(id, value) in &self.fields {
            octets.extend([*id, u8::try_from(value.len()).expect("a length of one octet")]);
            octets.extend(value);
            octets.resize(octets.len().next_multiple_of(4), 0);
        }
        mend_length(&mut octets);
        octets
    }

    /// The draft with one change.
    pub fn but(&self, change: impl FnOnce(&mut Draft)) -> Draft {
        let mut other = self.clone();
        change(&mut other);
        other
    }

    pub fn with(&self, fields: Vec<Part>) -> Draft {
        self.but(|draft| draft.fields = fields)
    }
}

fn name(random: &mut Random) -> Part {
    Part(USER_ID, good::name(random))
}

/// Numbers of two octets at and about the edges.
pub const NUMBERS: [u16; 10] = [0, 1, 2, 8, 255, 256, 32767, 32768, 65534, 65535];

/// A number of two octets, often at an edge.
fn number(random: &mut Random) -> Octets {
    let number = if random.once_in(2) { *random.pick(&NUMBERS) } else { random.word() as u16 };
    number.to_be_bytes().to_vec()
}

/// A Reject Cause, with a phrase at times.
fn cause(random: &mut Random) -> Part {
    let phrase = if random.once_in(2) { 0 } else { random.below(20) };
    let mut value = number(random);
    value.extend((0..phrase).map(|_| random.octet()));
    Part(REJECT_CAUSE, value)
}

fn indicator(random: &mut Random) -> Part {
    Part(INDICATOR, number(random))
}

fn message_type(random: &mut Random) -> Part {
    Part(MESSAGE_TYPE, vec![*random.pick(EDGES), 0])
}

fn result(sheet: &Sheet, result: u8) -> Part {
    Part(sheet.number("resultid") as u8, vec![0, result])
}

/// The fields that a kind has to have, in each way that it can have them.
fn needed(random: &mut Random, sheet: &Sheet, kind: u32) -> Vec<Vec<Part>> {
    match kind {
        1 => vec![vec![name(random), name(random)]],
        2 => vec![vec![result(sheet, 1)], vec![result(sheet, 0), cause(random)]],
        3 | 4 => vec![vec![name(random)]],
        5 => vec![vec![cause(random)]],
        7 => vec![vec![Part(SOURCE, number(random)), message_type(random)]],
        _ => vec![vec![]],
    }
}

/// The same, without and with an Indicator where a kind may have one.
fn shapes(random: &mut Random, sheet: &Sheet, kind: u32) -> Vec<Vec<Part>> {
    let mut shapes = needed(random, sheet, kind);
    if INDICATED.contains(&kind) {
        for mut shape in shapes.clone() {
            shape.push(indicator(random));
            shapes.push(shape);
        }
    }
    shapes
}

/// Good packets of a kind, one of each shape, their fields in the order written.
pub fn of_kind(random: &mut Random, sheet: &Sheet, kind: u32) -> Vec<Draft> {
    let (letters, key) = MESSAGES[kind as usize - 1];
    let number = sheet.number(key) as u8;
    let shapes = shapes(random, sheet, kind);
    let mut draft = |fields| {
        let ssrc = if random.once_in(2) { random.word() } else { *random.pick(&sheet.ssrcs) };
        Draft { ack: random.once_in(2), number, ssrc, letters: *letters, fields }
    };
    shapes.into_iter().map(&mut draft).collect()
}

/// Values that are good or nearly so in some field: of every length that matters, and with every octet that does.
pub fn values() -> Vec<Octets> {
    let mut values = vec![];
    for length in (0..=8).chain(57..=64).chain([100, 127, 128, 200]) {
        values.extend([0, b'u', 0xFF].map(|octet| vec![octet; length]));
    }
    for octet in EDGES {
        values.extend(EDGES.iter().map(|second| vec![*octet, *second]));
        for (length, at) in [(1, 0), (5, 0), (5, 2), (5, 4), (60, 0), (60, 30), (60, 59)] {
            values.push(replaced(&vec![b'u'; length], at, *octet));
        }
    }
    values
}

/// Fields that most kinds have no use for, some that each kind has, and some with an ID that none may have.
pub fn others(sheet: &Sheet) -> Vec<Part> {
    let result_id = sheet.number("resultid") as u8;
    let mut ids: Vec<u8> = (0..=15).collect();
    ids.extend([result_id - 1, result_id, result_id + 1, 190, 191, 192, 193, 255]);
    let values: [&[u8]; 6] = [b"", b"a", &[0, 0], &[0, 1], &[1, 0], &[0xFF; 7]];
    ids.iter().flat_map(|id| values.map(|value| Part(*id, value.to_vec()))).collect()
}

/// A field by chance that a message of this kind skips.
pub fn skipped(random: &mut Random, sheet: &Sheet, kind: u32) -> Part {
    let result_id = sheet.number("resultid") as u8;
    let used: &[u8] = match kind {
        1 | 3 => &[USER_ID, INDICATOR],
        2 => &[result_id, REJECT_CAUSE, INDICATOR],
        4 => &[USER_ID],
        5 => &[REJECT_CAUSE, INDICATOR],
        7 => &[SOURCE, MESSAGE_TYPE],
        _ => &[],
    };
    let ids: Vec<u8> = (0..192).filter(|id| !used.contains(id)).collect();
    let telling: Vec<u8> = ids.iter().copied().filter(|id| *id < 16 || *id == result_id || *id == 191).collect();
    let id = if random.once_in(3) { *random.pick(&ids) } else { *random.pick(&telling) };
    let length = if random.once_in(3) { 0 } else { random.below(10) };
    let zeros = random.once_in(3);
    Part(id, (0..length).map(|_| if zeros { 0 } else { random.octet() }).collect())
}
