//! Made packets: good ones of every kind, and each damaged in every way that could be thought of.

use crate::damage;
use crate::drafts::{self, inserted, replaced, Draft, Octets, Part, LETTERS};
use crate::good;
use crate::packet::{kinds, LONGEST, MESSAGES};
use crate::random::Random;
use crate::sheet::{Sheet, SEATS};
use crate::values;
use crate::wire::{self, Case};

/// How often each set of faults is made, of other sorts each time.
const SORTS: usize = 6;

/// How many packets a sheet by chance has.
const PACKETS: usize = 6;

/// Every order of a list.
fn orders<T: Clone>(list: &[T]) -> Vec<Vec<T>> {
    let Some((first, rest)) = list.split_first() else {
        return vec![vec![]];
    };
    let places = 0..list.len();
    let shorter = orders(rest);
    shorter.iter().flat_map(|order| places.clone().map(|at| inserted(order, at, first.clone()))).collect()
}

/// Every choice of some elements of a list.
fn choices<T: Clone>(list: &[T]) -> Vec<Vec<T>> {
    let chosen = |set: usize| (0..list.len()).filter(|at| set >> at & 1 == 1).map(|at| list[at].clone()).collect();
    (0..1 << list.len()).map(chosen).collect()
}

/// Drafts with another value in one field.
fn with_other_values(draft: &Draft) -> Vec<Draft> {
    let mut drafts = vec![];
    for (at, Part(id, _)) in draft.fields.iter().enumerate() {
        let changed = |value| draft.with(replaced(&draft.fields, at, Part(*id, value)));
        drafts.extend(drafts::values().into_iter().map(changed));
    }
    drafts
}

/// Drafts with one field more: those that matter in every place, and one of every ID at the end.
fn with_one_more(draft: &Draft, sheet: &Sheet) -> Vec<Draft> {
    let more = |at, part| draft.with(inserted(&draft.fields, at, part));
    let end = draft.fields.len();
    let mut drafts: Vec<Draft> = (0..=255).map(|id| more(end, Part(id, vec![0, 1]))).collect();
    let parts = [drafts::others(sheet), draft.fields.clone()].concat();
    for at in 0..=end {
        drafts.extend(parts.iter().map(|part| more(at, part.clone())));
    }
    drafts
}

/// Drafts with the fields and two that are skipped in every order, and with only some of the fields.
fn with_other_orders(random: &mut Random, draft: &Draft, sheet: &Sheet, kind: u32) -> Vec<Draft> {
    let mut fields = draft.fields.clone();
    fields.extend([(); 2].map(|()| drafts::skipped(random, sheet, kind)));
    let lists = [orders(&draft.fields), orders(&fields), choices(&draft.fields)].concat();
    lists.into_iter().map(|fields| draft.with(fields)).collect()
}

/// Drafts filled up to a size about the greatest: by one long field, by empty ones, by a longer value.
fn filled(draft: &Draft, size: usize) -> Vec<Draft> {
    let room = size - draft.octets().len();
    let mut lists = vec![[draft.fields.clone(), vec![Part(0, vec![]); room / 4]].concat()];
    for length in room.saturating_sub(5)..room.saturating_sub(1) {
        lists.push(inserted(&draft.fields, 0, Part(1, vec![b'f'; length])));
    }
    for (at, Part(id, value)) in draft.fields.iter().enumerate() {
        lists.push(replaced(&draft.fields, at, Part(*id, [&value[..], &vec![b'f'; room]].concat())));
    }
    lists.retain(|fields| fields.iter().all(|Part(_, value)| value.len() <= 255));
    lists.into_iter().map(|fields| draft.with(fields)).collect()
}

/// Drafts with the letters and numbers of all kinds, and others.
fn with_other_heads(draft: &Draft) -> Vec<Draft> {
    let mut drafts = vec![];
    for letters in LETTERS {
        let changed = |number| draft.but(|draft| (draft.letters, draft.number) = (*letters, number));
        drafts.extend((0..16).map(changed));
    }
    drafts
}

/// A draft with its fields in some order, and with some that are skipped.
pub fn mixed(random: &mut Random, sheet: &Sheet, kind: u32) -> Draft {
    let drafts = drafts::of_kind(random, sheet, kind);
    let mut draft = random.pick(&drafts).clone();
    if random.once_in(2) {
        random.shuffle(&mut draft.fields);
    }
    for _ in 0..random.below(4) {
        let at = random.below(draft.fields.len() + 1);
        draft.fields.insert(at, drafts::skipped(random, sheet, kind));
    }
    draft
}

/// A packet by chance: good, or with a few faults anywhere. The sheet's numbers are good.
pub fn any(random: &mut Random, sheet: &Sheet) -> Octets {
    let kind = random.within(1, MESSAGES.len() as u32);
    let draft = mixed(random, sheet, kind);
    let (one, set) = (1 << random.below(5), random.below(32) as u32);
    match random.below(8) {
        0..=2 => draft.octets(),
        3 => damage::with_faults(random, &draft, one),
        4 => damage::with_faults(random, &draft, set),
        5 => damage::noise(random, &draft),
        _ => {
            let mut packet = draft.octets();
            for _ in 0..=random.below(2) {
                damage::damage(random, &mut packet);
            }
            packet
        }
    }
}

/// All that is made of one draft.
fn about_draft(random: &mut Random, sheet: &Sheet, kind: u32, draft: &Draft) -> Vec<Octets> {
    let mut drafts = with_other_values(draft);
    drafts.extend(with_one_more(draft, sheet));
    drafts.extend(with_other_orders(random, draft, sheet, kind));
    drafts.extend([LONGEST - 4, LONGEST, LONGEST + 4].iter().flat_map(|size| filled(draft, *size)));
    let mut packets: Vec<Octets> = drafts.iter().map(Draft::octets).collect();
    for set in 0..32 {
        packets.extend((0..SORTS).map(|_| damage::with_faults(random, draft, set)));
    }
    for packet in [draft.octets(), mixed(random, sheet, kind).octets()] {
        packets.extend(damage::with_other_octets(&packet));
        packets.extend(damage::with_other_lengths(&packet));
        packets.extend(damage::with_other_sizes(&packet));
    }
    packets
}

/// All that is made of one kind under a sheet.
fn of_kind(random: &mut Random, sheet: &Sheet, kind: u32) -> Vec<Octets> {
    let drafts = drafts::of_kind(random, sheet, kind);
    let mut packets: Vec<Octets> = with_other_heads(&drafts[0]).iter().map(Draft::octets).collect();
    packets.extend(damage::with_other_first_octets(&drafts[0].octets()));
    for draft in &drafts {
        packets.extend(about_draft(random, sheet, kind, draft));
        packets.extend((0..20).map(|_| damage::noise(random, draft)));
    }
    packets
}

/// Packets under values that no sheet reads to, and under such as differ from a sheet in one place.
fn under_other_values(random: &mut Random) -> Vec<Case> {
    let sheet = good::sheet(random, SEATS / 2);
    let mut cases = vec![];
    for value in values::with_other_numbers_or_ssrcs(&sheet) {
        let mut packets: Vec<Octets> = kinds().map(|kind| mixed(random, &sheet, kind).octets()).collect();
        packets.extend([vec![], any(random, &sheet), any(random, &sheet)]);
        cases.extend(wire::packet_cases(&value, &packets));
    }
    cases
}

/// All that is made of each kind, under another sheet for each kind and each count of seats.
pub fn systematic(random: &mut Random) -> Vec<Case> {
    let mut cases = under_other_values(random);
    for seats in 1..=SEATS {
        for kind in kinds() {
            let sheet = good::sheet(random, seats);
            let packets = of_kind(random, &sheet, kind);
            cases.extend(wire::packet_cases(&sheet, &packets));
        }
    }
    cases
}

/// Some packets under a sheet by chance; at times its value is spoilt.
pub fn some(random: &mut Random) -> Case {
    let seats = random.below(SEATS) + 1;
    let sheet = good::sheet(random, seats);
    let packets = (0..PACKETS).map(|_| any(random, &sheet)).collect();
    let value = if random.once_in(10) { values::spoilt(random, &sheet) } else { sheet };
    Case::Packets(value, packets)
}

/// A packet under a sheet by chance, for the field step.
pub fn one(random: &mut Random) -> Octets {
    let sheet = good::sheet(random, 1);
    any(random, &sheet)
}
