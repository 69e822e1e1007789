//! Made packets offered as events: from everybody, damaged, and under values that no sheet reads to.

use super::scene::Scene;
use super::sheets;
use super::wire::{event_cases, Case};
use crate::damage;
use crate::drafts::{Draft, Octets};
use crate::good;
use crate::packet::{kinds, MESSAGES};
use crate::packets;
use crate::random::Random;
use crate::sheet::SEATS;
use crate::values;

/// How often each set of faults is made, of other sorts each time.
const SORTS: usize = 2;

/// How many packets a sheet by chance has.
const PACKETS: usize = 6;

/// Packets of each kind with each set of the faults for refusals 1 to 5.
fn damaged(random: &mut Random, scene: &Scene) -> Vec<Octets> {
    let mut packets = vec![];
    for kind in kinds() {
        for set in 1..32 {
            for _ in 0..SORTS {
                let draft = scene.any(random, kind);
                packets.push(damage::with_faults(random, &draft, set));
            }
        }
    }
    packets
}

/// Packets that make an event, each with another octet in one place, another length and another size.
fn nearly_good(random: &mut Random, scene: &Scene) -> Vec<Octets> {
    let mut packets = vec![];
    for kind in [1, 3, 6] {
        let packet = scene.good(random, kind).octets();
        packets.extend(damage::with_other_octets(&packet));
        packets.extend(damage::with_other_lengths(&packet));
        packets.extend(damage::with_other_sizes(&packet));
    }
    packets
}

/// A packet of each kind by chance, and one with a fault for each of the refusals 1 to 5.
fn of_each_sort(random: &mut Random, scene: &Scene) -> Vec<Octets> {
    let mut packets: Vec<Octets> = kinds().map(|kind| scene.any(random, kind).octets()).collect();
    for fault in 0..5 {
        let draft = any_draft(random, scene);
        packets.push(damage::with_faults(random, &draft, 1 << fault));
    }
    packets
}

/// Packets under values that no sheet reads to, and under such as differ from a sheet in one place.
fn under_other_values(random: &mut Random) -> Vec<Case> {
    let mut cases = vec![];
    for seats in [1, SEATS / 2, SEATS] {
        let sheet = good::sheet(random, seats);
        let scene = Scene::new(random, &sheet);
        for value in values::with_one_change(&sheet) {
            cases.extend(event_cases(&value, &of_each_sort(random, &scene)));
        }
    }
    cases
}

/// Packets from everybody under sheets made in each way, of each count of seats; and what is made of some of them.
pub fn systematic(random: &mut Random) -> Vec<Case> {
    let mut cases = under_other_values(random);
    for seats in 1..=SEATS {
        for sheet in sheets::all(random, seats) {
            let scene = Scene::new(random, &sheet);
            let mut packets: Vec<Octets> = scene.all(random).iter().map(Draft::octets).collect();
            packets.extend(damaged(random, &scene));
            cases.extend(event_cases(&sheet, &packets));
        }
        let sheet = good::sheet(random, seats);
        let scene = Scene::new(random, &sheet);
        cases.extend(event_cases(&sheet, &nearly_good(random, &scene)));
    }
    cases
}

fn any_draft(random: &mut Random, scene: &Scene) -> Draft {
    let kind = random.within(1, MESSAGES.len() as u32);
    scene.any(random, kind)
}

/// A packet by chance: one that makes an event for the most part, or with faults.
fn any(random: &mut Random, scene: &Scene) -> Octets {
    let event = *random.pick(&[1, 1, 3, 6]);
    match random.below(10) {
        0 => packets::any(random, scene.sheet),
        1 => any_draft(random, scene).octets(),
        2 | 3 => {
            let mut packet = scene.any(random, event).octets();
            damage::damage(random, &mut packet);
            packet
        }
        _ => scene.any(random, event).octets(),
    }
}

/// Some packets under a sheet by chance; at times its value is spoilt.
pub fn some(random: &mut Random) -> Case {
    let sheet = sheets::any(random);
    let scene = Scene::new(random, &sheet);
    let packets = (0..PACKETS).map(|_| any(random, &scene)).collect();
    let value = if random.once_in(10) { values::spoilt(random, &sheet) } else { sheet };
    Case::Events(value, packets)
}
