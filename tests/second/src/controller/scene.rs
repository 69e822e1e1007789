//! Who has a seat under a sheet and who is easily taken for somebody, and packets from all of them.

use super::events::NO_EVENTS;
use crate::drafts::{replaced, Draft, Octets, Part};
use crate::packet::USER_ID;
use crate::packets;
use crate::random::Random;
use crate::sheet::{self, Sheet};
use crate::values;

/// How often a packet is made that makes an event, or whose kind makes none, of another shape each time.
const SHAPES: usize = 2;

/// Who sends a packet and who is named: an SSRC, and what the User IDs are in their order.
type Who<'a> = (u32, Vec<&'a Octets>);

pub struct Scene<'a> {
    pub sheet: &'a Sheet,
    /// SSRCs that no seat has
    strangers: Vec<u32>,
    /// the User IDs of the seats
    users: Vec<Octets>,
    /// User IDs that no seat has
    nobodies: Vec<Octets>,
    /// octets that are no User ID
    no_names: Vec<Octets>,
}

/// A User ID with one octet changed.
fn but_for_one(random: &mut Random, user: &Octets) -> Octets {
    let at = random.below(user.len());
    replaced(user, at, if user[at] == b'~' { b'!' } else { user[at] + 1 })
}

impl<'a> Scene<'a> {
    pub fn new(random: &mut Random, sheet: &'a Sheet) -> Scene<'a> {
        let mut strangers = values::ssrcs_to_find(random, sheet);
        strangers.push(sheet.number("server"));
        strangers.retain(|ssrc| sheet.seat_by_ssrc(*ssrc).is_none());
        strangers.sort();
        strangers.dedup();
        let users: Vec<Octets> = sheet.user_ids().map(<[u8]>::to_vec).collect();
        let mut others = values::names_to_find(random, sheet);
        others.extend(users.iter().map(|user| but_for_one(random, user)));
        others.retain(|name| sheet.seat_by_user(name).is_none());
        others.sort();
        others.dedup();
        let (nobodies, no_names) = others.into_iter().partition(|name| sheet::is_user_id(name));
        Scene { sheet, strangers, users, nobodies, no_names }
    }

    /// A packet of a kind, with its fields in some order and with some that are skipped. A User ID that is skipped
    /// names somebody, too.
    fn draft(&self, random: &mut Random, kind: u32, (ssrc, names): Who) -> Draft {
        let mut draft = packets::mixed(random, self.sheet, kind);
        draft.ssrc = ssrc;
        let fields = draft.fields.iter_mut().filter(|Part(id, _)| *id == USER_ID);
        fields.zip(names).for_each(|(Part(_, value), name)| value.clone_from(name));
        draft
    }

    /// Requests from every seat, with the User ID and the Source ID of every seat and of nobody; and from nobody, with
    /// the User ID of every seat and of nobody.
    fn requests(&self, random: &mut Random) -> Vec<Who<'_>> {
        let mut requests = vec![];
        for (own, ssrc) in self.users.iter().zip(self.sheet.ssrcs) {
            for user in &self.users {
                requests.extend(self.users.iter().map(|source| (ssrc, vec![user, source])));
                requests.push((ssrc, vec![user, random.pick(&self.nobodies)]));
            }
            for nobody in &self.nobodies {
                let sources = [random.pick(&self.users), random.pick(&self.nobodies)];
                requests.push((ssrc, vec![own, nobody]));
                requests.extend(sources.map(|source| (ssrc, vec![nobody, source])));
            }
        }
        for ssrc in &self.strangers {
            for user in self.users.iter().chain([random.pick(&self.nobodies)]) {
                let sources = [random.pick(&self.users), random.pick(&self.nobodies)];
                requests.extend(sources.map(|source| (*ssrc, vec![user, source])));
            }
        }
        requests
    }

    /// Ends from every seat, of the streams of every seat and of nobody; and from nobody.
    fn ends(&self, random: &mut Random) -> Vec<Who<'_>> {
        let named = self.users.iter().chain(&self.nobodies);
        let seats = self.sheet.ssrcs[..self.users.len()].iter();
        let mut ends: Vec<Who> = seats.flat_map(|ssrc| named.clone().map(|name| (*ssrc, vec![name]))).collect();
        for ssrc in &self.strangers {
            let named = self.users.iter().chain([random.pick(&self.nobodies)]);
            ends.extend(named.map(|name| (*ssrc, vec![name])));
        }
        ends
    }

    /// Requests and ends from somebody, with octets that are no User ID.
    fn with_no_names(&self, random: &mut Random) -> Vec<Draft> {
        let mut drafts = vec![];
        for name in &self.no_names {
            let (ssrc, [user, ..]) = self.any_sender(random);
            for (kind, names) in [(1, vec![user, name]), (1, vec![name, user]), (3, vec![name])] {
                drafts.push(self.draft(random, kind, (ssrc, names)));
            }
        }
        drafts
    }

    /// A packet of a kind in some shapes, each with and without an Ack asked.
    fn in_shapes(&self, random: &mut Random, kind: u32, (ssrc, names): Who) -> Vec<Draft> {
        let drafts = (0..SHAPES).map(|_| self.draft(random, kind, (ssrc, names.clone())));
        drafts.flat_map(|draft| [false, true].map(|ack| draft.but(|draft| draft.ack = ack))).collect()
    }

    /// Requests and ends from every seat on every stream.
    fn events(&self, random: &mut Random) -> Vec<Draft> {
        let mut drafts = vec![];
        for (own, ssrc) in self.users.iter().zip(self.sheet.ssrcs) {
            for user in &self.users {
                drafts.extend(self.in_shapes(random, 1, (ssrc, vec![own, user])));
                drafts.extend(self.in_shapes(random, 3, (ssrc, vec![user])));
            }
        }
        drafts
    }

    /// End responses and all that makes no event, from everybody.
    fn others(&self, random: &mut Random) -> Vec<Draft> {
        let mut drafts = vec![];
        for ssrc in self.sheet.ssrcs[..self.users.len()].iter().chain(&self.strangers) {
            for kind in [&[6][..], &NO_EVENTS].concat() {
                let named = vec![self.any_name(random)];
                drafts.extend(self.in_shapes(random, kind, (*ssrc, named)));
            }
        }
        drafts
    }

    /// Packets of every kind from everybody.
    pub fn all(&self, random: &mut Random) -> Vec<Draft> {
        let mut drafts = self.events(random);
        for (kind, all) in [(1, self.requests(random)), (3, self.ends(random))] {
            drafts.extend(all.into_iter().map(|who| self.draft(random, kind, who)));
        }
        drafts.extend(self.with_no_names(random));
        drafts.extend(self.others(random));
        drafts
    }

    /// The User ID of a seat for the most part.
    fn any_name(&self, random: &mut Random) -> &Octets {
        let among = if random.once_in(6) { &self.nobodies } else { &self.users };
        random.pick(among)
    }

    /// A seat's SSRC and its User ID for the most part; and somebody's name.
    fn any_sender(&self, random: &mut Random) -> (u32, [&Octets; 2]) {
        let at = random.below(self.users.len());
        let ssrc = if random.once_in(8) { *random.pick(&self.strangers) } else { self.sheet.ssrcs[at] };
        let user = if random.once_in(6) { self.any_name(random) } else { &self.users[at] };
        (ssrc, [user, self.any_name(random)])
    }

    /// A packet of a kind by chance, whose sender and names are right for the most part.
    pub fn any(&self, random: &mut Random, kind: u32) -> Draft {
        let (ssrc, [user, name]) = self.any_sender(random);
        let names = if kind == 1 { vec![user, name] } else { vec![name] };
        self.draft(random, kind, (ssrc, names))
    }

    /// A packet that makes an event, or would if its kind did.
    pub fn good(&self, random: &mut Random, kind: u32) -> Draft {
        let at = random.below(self.users.len());
        let named = random.pick(&self.users);
        let names = if kind == 1 { vec![&self.users[at], named] } else { vec![named] };
        self.draft(random, kind, (self.sheet.ssrcs[at], names))
    }
}

#[cfg(test)]
mod tests {
    use super::*;
    use crate::controller::events::{event_of, judged};
    use crate::controller::sheets;
    use crate::sheet::SEATS;

    #[test]
    fn everybody_is_who_they_are() {
        let random = &mut Random::new(1);
        for sheet in (1..=SEATS).flat_map(|seats| sheets::all(random, seats)).collect::<Vec<Sheet>>() {
            let scene = Scene::new(random, &sheet);
            assert_eq!(scene.users.len(), sheet.rows());
            assert!(scene.users.iter().enumerate().all(|(s, user)| sheet.seat_by_user(user) == Some(s)));
            assert!(scene.strangers.iter().all(|ssrc| sheet.seat_by_ssrc(*ssrc).is_none()));
            assert!(!scene.strangers.is_empty() && !scene.nobodies.is_empty() && !scene.no_names.is_empty());
            for kind in [1, 3, 6] {
                assert!(event_of(judged(&sheet), &scene.good(random, kind).octets()).is_ok());
            }
        }
    }
}
