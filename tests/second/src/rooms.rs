//! How long the buffers were that packets were written into.

use crate::drafts::Octets;
use crate::messages::PAST;
use std::collections::{BTreeMap, BTreeSet};

/// The lengths of the buffers for each packet of a sort, up to a little past it.
#[derive(Default)]
pub struct Rooms(BTreeMap<(String, Octets), BTreeSet<usize>>);

impl Rooms {
    /// Notes how long a packet's buffer was; true where with this one there was every length.
    pub fn is_last(&mut self, sort: &str, packet: &[u8], room: usize) -> bool {
        let most = packet.len() + PAST;
        let rooms = self.0.entry((sort.to_string(), packet.to_vec())).or_default();
        room <= most && rooms.insert(room) && rooms.len() == most + 1
    }
}

#[cfg(test)]
mod tests {
    use super::*;

    #[test]
    fn every_length_once() {
        let mut rooms = Rooms::default();
        let mut last = |packet: &[u8], room| rooms.is_last("kind 6", packet, room);
        assert!((0..20).chain(0..20).all(|room| !last(&[1; 12], room)));
        assert!(!last(&[1; 12], 21) && !last(&[2; 12], 20));
        assert!(last(&[1; 12], 20) && !last(&[1; 12], 20));
    }
}
