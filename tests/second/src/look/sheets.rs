//! Made texts that inputs begin with: good sheets, and sheets with faults of every sort.

use crate::drafts::Octets;
use crate::good;
use crate::random::Random;
use crate::sheet::{self, Sheet, SEATS, WIDTH};
use crate::texts;

/// Every text with a fault that is thought of.
pub struct Texts(Vec<Octets>);

impl Texts {
    pub fn new(random: &mut Random) -> Texts {
        Texts(texts::systematic(random))
    }

    /// The text of input `at`: its sort follows from its number, so that no sort is missing.
    pub fn at(&self, random: &mut Random, at: usize) -> Octets {
        match at % 8 {
            0..=2 => any_good(random).lines().concat(),
            3 => longest(random).lines().concat(),
            4 => cut(random),
            5 => texts::any(random),
            _ => random.pick(&self.0).clone(),
        }
    }
}

fn any_good(random: &mut Random) -> Sheet {
    let seats = random.below(SEATS) + 1;
    good::sheet(random, seats)
}

/// Eight seats with User IDs of 60 octets; with any numbers, or with the longest.
fn longest(random: &mut Random) -> Sheet {
    if random.once_in(2) {
        return good::longest();
    }
    let mut sheet = good::sheet(random, SEATS);
    for s in 0..SEATS {
        let mut user: Octets = (1..WIDTH).map(|_| random.within(0x21, 0x7E) as u8).collect();
        user.push(b'a' + s as u8);
        sheet.users[s] = sheet::row_of(&user).expect("60 octets");
    }
    sheet
}

/// A good sheet cut anywhere, or by its last octet or its last line.
fn cut(random: &mut Random) -> Octets {
    let mut lines = any_good(random).lines();
    if random.once_in(4) {
        lines.pop();
        return lines.concat();
    }
    let mut text = lines.concat();
    let end = if random.once_in(4) { text.len() - 1 } else { random.below(text.len()) };
    text.truncate(end);
    text
}

#[cfg(test)]
mod tests {
    use super::*;

    #[test]
    fn the_longest_are_good() {
        let random = &mut Random::new(1);
        for _ in 0..20 {
            let sheet = longest(random);
            assert!(sheet.is_valid() && sheet.user_ids().all(|user| user.len() == WIDTH));
        }
    }
}
