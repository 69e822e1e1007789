//! A message to write, with each of its values another, and with good and bad names.

use crate::drafts::{Draft, Octets, NUMBERS};
use crate::packet::{self, Message, HEAD};
use crate::random::Random;
use crate::sheet::{Sheet, WIDTH};
use crate::wire::Case;
use crate::writer;
use std::ops::Range;

/// The longest packet that is written: a header, two names with their padding, and an Indicator.
const LONGEST_WRITTEN: usize = HEAD + 2 * (WIDTH + 4) + 4;

/// How many octets may stand before a name.
const MANY: usize = 65000;

const SSRCS: [u32; 6] = [0, 1, 65535, 65536, 1 << 31, u32::MAX];

/// A message, and the octets that its names lie in.
#[derive(Clone)]
pub struct ToWrite {
    values: Message,
    names: Octets,
}

impl ToWrite {
    /// The message of a good packet.
    pub fn of(sheet: &Sheet, draft: &Draft) -> ToWrite {
        let names = draft.octets();
        ToWrite { values: packet::read(sheet, &names).expect("a good packet"), names }
    }

    /// The places of its names.
    fn places(&mut self) -> Vec<&mut Range<usize>> {
        [&mut self.values.user, &mut self.values.named].into_iter().flatten().collect()
    }

    /// Its numbers of two octets that may be any.
    fn numbers(&mut self) -> Vec<&mut u16> {
        let values = &mut self.values;
        [&mut values.cause, &mut values.indicator, &mut values.source].into_iter().flatten().collect()
    }

    /// The same with one change.
    fn but(&self, change: impl FnOnce(&mut ToWrite)) -> ToWrite {
        let mut other = self.clone();
        change(&mut other);
        other
    }

    /// The length of its packet, or of the longest where no packet reads to it.
    pub fn size(&self, sheet: &Sheet) -> usize {
        writer::packet_of(sheet, &self.values, &self.names).map_or(LONGEST_WRITTEN, |packet| packet.len())
    }

    pub fn case(&self, sheet: &Sheet, room: usize) -> Case {
        Case::Write(sheet.clone(), self.values.clone(), self.names.clone(), room)
    }
}

/// Octets by chance, at times none.
fn noise(random: &mut Random) -> Octets {
    let length = *random.pick(&[0, 0, 1, 8, 300]);
    (0..length).map(|_| random.octet()).collect()
}

/// A part of a range, at times all of it.
fn part_of(random: &mut Random, range: Range<usize>) -> Range<usize> {
    if random.once_in(2) {
        return range;
    }
    let start = range.start + random.below(range.len());
    start..start + 1 + random.below(range.end - start)
}

/// The message with its names among other octets, in either order, one in the other, or both in one place.
pub fn moved(random: &mut Random, message: &ToWrite) -> ToWrite {
    let mut other = message.clone();
    let mut names = noise(random);
    let mut places = other.places();
    random.shuffle(&mut places);
    for place in places {
        let name = &message.names[place.clone()];
        *place = names.len()..names.len() + name.len();
        names.extend(name);
        names.extend(noise(random));
    }
    if let ([user, named], true) = (&mut other.places()[..], random.once_in(3)) {
        **named = part_of(random, user.clone());
    }
    ToWrite { names, ..other }
}

/// Places about the edges of so many octets and of all that a place and a length can be, beside a good one.
fn other_places(count: usize, good: &Range<usize>) -> Vec<Range<usize>> {
    let (at, length, most) = (good.start, good.len(), u32::MAX as usize);
    let mut places = vec![(count, 0), (count + 1, 0), (count - 1, 1), (count - 1, 2), (count, 1), (count + 1, 1)];
    places.extend([(count - length, length), (count - length, length + 1), (count - length + 1, length)]);
    places.extend([0, WIDTH, WIDTH + 1, 255, 256, 1 << 31, most].map(|other| (at, other)));
    places.extend([1 << 8, 1 << 16, 1 << 31].iter().flat_map(|far| [(at + far, length), (at, length + far)]));
    for sum in [most, most + 1, most + 2, most + 1 + at + length] {
        places.extend([(sum - length, length), (at, sum - at), (most, sum - most), (1 << 31, sum - (1 << 31))]);
    }
    places.push((most, most));
    places.into_iter().map(|(at, length)| at.min(most)..at.min(most) + length.min(most)).collect()
}

/// Messages with one name in another place, or of another length, or whose names are cut off.
fn with_other_places(message: &ToWrite) -> Vec<ToWrite> {
    let mut others = vec![];
    for (k, good) in message.clone().places().into_iter().enumerate() {
        let places = other_places(message.names.len(), good);
        others.extend(places.into_iter().map(|place| message.but(|other| *other.places()[k] = place)));
        let long = message.but(|other| {
            other.names.splice(0..0, [b'u'; 4 * WIDTH]);
            other.places().into_iter().for_each(|place| *place = 1..2);
        });
        let lengths = (0..WIDTH + 4).chain([2 * WIDTH, 3 * WIDTH]);
        others.extend(lengths.map(|length| long.but(|other| *other.places()[k] = 3..3 + length)));
        others.extend([0, good.end - 1, good.end].map(|end| message.but(|other| other.names.truncate(end))));
        others.push(message.but(|other| {
            other.names.resize(MANY, 0);
            other.names.extend(&message.names[good.clone()]);
            *other.places()[k] = MANY..MANY + good.len();
        }));
    }
    others
}

/// Messages with any other octet at the start, in the middle and at the end of a name.
fn with_other_octets(message: &ToWrite) -> Vec<ToWrite> {
    let mut others = vec![];
    for place in message.clone().places() {
        for at in [place.start, (place.start + place.end) / 2, place.end - 1] {
            others.extend((0..=255).map(|octet| message.but(|other| other.names[at] = octet)));
        }
    }
    others
}

/// Messages with another number in one place.
fn with_other_numbers(message: &ToWrite) -> Vec<ToWrite> {
    let mut others: Vec<ToWrite> = SSRCS.map(|ssrc| message.but(|other| other.values.ssrc = ssrc)).to_vec();
    others.push(message.but(|other| other.values.ack ^= true));
    for k in 0..message.clone().numbers().len() {
        others.extend(NUMBERS.map(|number| message.but(|other| *other.numbers()[k] = number)));
    }
    if message.values.about.is_some() {
        others.extend((0..=255).map(|about| message.but(|other| other.values.about = Some(about))));
    }
    others
}

/// Messages with another value in one place.
pub fn with_other_values(message: &ToWrite) -> Vec<ToWrite> {
    [with_other_places(message), with_other_octets(message), with_other_numbers(message)].concat()
}

/// Gives a name another place or length, or an octet that no name has; where there is no name, nothing.
pub fn spoil_name(random: &mut Random, message: &mut ToWrite) {
    let count = message.names.len();
    let mut places = message.places();
    if places.is_empty() {
        return;
    }
    let place = places.swap_remove(random.below(places.len()));
    if random.once_in(2) {
        *place = random.pick(&other_places(count, place)).clone();
    } else {
        let at = place.start + random.below(place.len());
        message.names[at] = *random.pick(&[0, 0x0A, 0x20, 0x7F, 0x80, 0xFF]);
    }
}
