//! All calls that are made: those of every shape and each change of them, those of the other words' cases, and rounds of
//! calls by chance.

use super::call::{Call, Function, FUNCTIONS};
use super::{changes, good, made, others};
use crate::controller::{self, answered, offered};
use crate::random::Random;
use crate::reception::record::IDLE;
use crate::reception::{self, attempts, chance, families, stores};
use crate::{messages, packets, places, texts, values, wire};
use std::io::{self, BufWriter, Write};

/// How often every two parameters are changed at once.
const PAIRS: usize = 30;

/// How many steps of two routines are taken of each row by chance.
const STEPS: usize = 8;

/// How many octets a packet may have in which a field is looked for.
const LONGEST: usize = 600;

/// Makes a family of another word's cases.
type Family<C> = fn(&mut Random) -> Vec<C>;

const OF_PACKETS: [Family<wire::Case>; 7] = [
    |random| texts::systematic(random).into_iter().map(wire::Case::Read).collect(),
    |random| values::systematic(random).into_iter().map(wire::Case::Valid).collect(),
    values::systematic_searches,
    |_| values::systematic_names().into_iter().map(wire::Case::UserId).collect(),
    packets::systematic,
    places::systematic,
    messages::systematic,
];
const OF_RECEPTION: [Family<reception::Case>; 2] = [attempts::systematic, |_| stores::systematic()];
const OF_CONTROLLER: [Family<controller::Case>; 2] = [offered::systematic, answered::systematic];

/// Takes calls as they are made.
pub type Take<'a> = &'a mut dyn FnMut(Call) -> io::Result<()>;

/// Some of a family, each by chance, so that there are about as many as wanted.
fn thinned<T>(random: &mut Random, all: Vec<T>, most: usize) -> Vec<T> {
    let count = all.len().max(1);
    all.into_iter().filter(|_| random.below(count) < most).collect()
}

/// Every call that is taken, each with every change but of its sheet; one of them with every change of that, too; and
/// with two parameters changed at once.
fn of_function(random: &mut Random, function: Function, take: Take) -> io::Result<()> {
    let sheet = good::sheet(random);
    let all = good::all(random, &sheet, function);
    let is_sheet = |name: &str| ["sheet", "users"].contains(&name);
    for call in &all {
        take(call.clone())?;
        changes::each(call, |name| !is_sheet(name)).try_for_each(&mut *take)?;
    }
    let call = random.pick(&all).clone();
    changes::each(&call, is_sheet).try_for_each(&mut *take)?;
    changes::longest(&call).try_for_each(&mut *take)?;
    for _ in 0..PAIRS {
        let call = random.pick(&all).clone();
        changes::pairs(random, &call).into_iter().try_for_each(&mut *take)?;
    }
    Ok(())
}

/// The other words' families, each thinned, and P13.
fn of_other_words(random: &mut Random, most: usize, take: Take) -> io::Result<()> {
    for family in OF_PACKETS {
        let calls = family(random).into_iter().flat_map(others::about_packets).collect();
        thinned(random, calls, most).into_iter().try_for_each(&mut *take)?;
    }
    for family in OF_RECEPTION {
        let calls = family(random).into_iter().flat_map(|case| others::about_reception(random, case)).collect();
        thinned(random, calls, most).into_iter().try_for_each(&mut *take)?;
    }
    for family in OF_CONTROLLER {
        let calls = family(random).into_iter().flat_map(others::about_controller).collect();
        thinned(random, calls, most).into_iter().try_for_each(&mut *take)?;
    }
    let p13 = reception::Case::Schedules(families::with_limit(1), families::start(IDLE), vec![families::P13]);
    others::about_reception(random, p13).into_iter().try_for_each(take)
}

/// A field in octets of any length.
fn field(random: &mut Random) -> Call {
    let mut octets = places::any_octets(random);
    while random.once_in(2) {
        octets.extend(places::any_octets(random));
    }
    octets.truncate(LONGEST);
    let place = places::any_place(random, &octets);
    made::field(&octets, place as u32)
}

/// A call by chance of any function that is taken.
fn taken(random: &mut Random) -> Call {
    let (sheet, function) = (good::sheet(random), *random.pick(&FUNCTIONS));
    let calls = good::all(random, &sheet, function);
    random.pick(&calls).clone()
}

/// Some calls by chance, by the makers of the other words or of those that are taken.
fn some(random: &mut Random) -> Vec<Call> {
    match random.below(9) {
        0 => (0..4).map(|_| made::sheet(&texts::any(random))).collect(),
        1 => others::about_packets(packets::some(random)),
        2 => others::about_packets(places::some(random)),
        3 => (0..4).map(|_| field(random)).collect(),
        4 => messages::some(random).into_iter().flat_map(others::about_packets).collect(),
        5 => others::about_controller(offered::some(random)),
        6 => (0..4).flat_map(|_| others::about_controller(answered::one(random))).collect(),
        7 => {
            let mut steps = chance::steps(random);
            if let reception::Case::Steps(_, _, steps) = &mut steps {
                steps.truncate(STEPS);
            }
            others::about_reception(random, steps)
        }
        _ => (0..8).map(|_| taken(random)).collect(),
    }
}

/// The call, at times with a change or two.
fn perhaps_changed(random: &mut Random, mut call: Call) -> Call {
    for _ in 0..*random.pick(&[0, 0, 0, 1, 1, 2]) {
        call = changes::any(random, &call);
    }
    call
}

/// Hands out every call that is thought of, of each family of the other words half as many as there are rounds, and then
/// so many rounds of calls by chance.
pub fn each(seed: u64, rounds: usize, take: Take) -> io::Result<()> {
    let random = &mut Random::new(seed);
    for function in FUNCTIONS {
        of_function(random, function, take)?;
    }
    of_other_words(random, rounds / 2, take)?;
    for _ in 0..rounds {
        for call in some(random) {
            take(perhaps_changed(random, call))?;
        }
    }
    Ok(())
}

/// Writes all calls.
pub fn make(seed: u64, rounds: usize, out: impl Write) -> io::Result<bool> {
    let mut out = BufWriter::new(out);
    each(seed, rounds, &mut |call| out.write_all(&call.octets()))?;
    out.flush().map(|()| true)
}
