//! Who takes part in handing a list on, and what the list is.

use super::cover::{self, Cover, Piece, AROUND};
use crate::random::Rng;
use assembler::pointer;

/// Most words of a segment.
pub const LONGEST: u32 = 4096;

/// Who takes part, and the list handed on, which has a segment of its own.
pub struct Plan {
    pub cover: Cover,
    pub pieces: Vec<Piece>,
    pub n: u32,
    pub segment: u32,
    pub at: u32,
    /// Whether a giver, domain 1, comes between the origin, domain 0, and the
    /// relay.
    pub giver: bool,
    /// The first relay's domain: one of its own, or the origin, which the giver
    /// calls back.
    pub relay: u32,
    /// How often the list comes to the second relay, to which the third hands
    /// it back; 0 where there is one relay.
    pub rounds: u32,
    /// The domain called last.
    pub called: u32,
}

impl Plan {
    /// Chooses what the list is, how it is covered and who takes part.
    pub fn new(rng: &mut Rng) -> Plan {
        let is_called_back = rng.chance(35);
        let cover = match is_called_back && rng.chance(40) {
            true => Cover::One,
            false => cover::choose(rng),
        };
        let n = rng.below(9);
        let last = LONGEST - (3 + 2 * n);
        let giver = is_called_back || cover.needs_giver() || rng.chance(40);
        let relay = match is_called_back {
            true => 0,
            false => 1 + u32::from(giver),
        };
        let rounds = if rng.chance(25) { rng.between(1, 4) } else { 0 };
        let called = relay.max(u32::from(giver)) + if rounds == 0 { 1 } else { 3 };
        let at = match cover {
            Cover::PastTheEnd => rng.between(last + 1, LONGEST - 1),
            _ if rng.chance(5) => last,
            _ => rng.between(AROUND, 6),
        };
        Plan {
            cover,
            pieces: cover::pieces(rng, cover, 3 + 2 * n),
            n,
            segment: 2 * (called + 1),
            at,
            giver,
            relay,
            rounds,
            called,
        }
    }

    /// How many words the list has.
    pub fn length(&self) -> u32 {
        3 + 2 * self.n
    }

    /// A pointer word to a word of the list.
    pub fn word(&self, k: u32) -> u32 {
        pointer(self.segment, (self.at + k).min(LONGEST - 1))
    }

    /// The segment where more than one relay go back.
    pub fn way_back(&self) -> u32 {
        self.segment + 1
    }

    /// Whether there is one relay.
    pub fn has_one_relay(&self) -> bool {
        self.rounds == 0
    }

    /// The domains of the second and the third relay, if they are there.
    pub fn further_relays(&self) -> [u32; 2] {
        [self.called - 2, self.called - 1]
    }

    /// The domain that the first relay calls.
    pub fn after_relay(&self) -> u32 {
        match self.has_one_relay() {
            true => self.called,
            false => self.further_relays()[0],
        }
    }

    /// All relays.
    pub fn relays(&self) -> Vec<u32> {
        let mut relays = vec![self.relay];
        if !self.has_one_relay() {
            relays.extend(self.further_relays());
        }
        relays
    }

    /// Each domain that calls, with the one that it calls.
    pub fn calls(&self) -> Vec<(u32, u32)> {
        let mut calls = match self.giver {
            true => vec![(0, 1), (1, self.relay)],
            false => vec![(0, self.relay)],
        };
        calls.push((self.relay, self.after_relay()));
        if !self.has_one_relay() {
            let [second, third] = self.further_relays();
            calls.extend([(second, third), (third, second), (second, self.called)]);
        }
        calls
    }
}
