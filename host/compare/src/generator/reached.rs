//! States that hubs come to on their own: a home in which messages are lost, repeated and reordered, and hubs start and restart at any time.

use crate::binding::both::{Call, Tally};
use crate::binding::call::{PROPOSE, RECEIVE, RESTART, SEND, START};
use crate::generator::messages::ROOM;
use crate::generator::rng::Rng;
use crate::generator::states::{at_most, command};
use image::{Image, LEADER, STATE_SIZE};
use independent::{Group, message};

/// The network keeps at most this many texts.
const AFLOAT: usize = 24;

pub struct Home {
    n: u32,
    states: Vec<Vec<u8>>,
    /// Texts under way, each with the hub that it goes to.
    afloat: Vec<(u32, Vec<u8>)>,
}

impl Home {
    /// A home of fresh hubs.
    pub fn fresh(n: u32) -> Home {
        Home { n, states: vec![vec![0; STATE_SIZE]; n as usize], afloat: Vec::new() }
    }

    /// One of the hubs, and its state.
    pub fn any(&self, rng: &mut Rng) -> (Group, Image) {
        let own = 1 + rng.up_to(self.n - 1);
        (Group::new(self.n, own).expect("a group"), self.image(own))
    }

    fn image(&self, own: u32) -> Image {
        Image::read(&self.states[own as usize - 1]).expect("a hub's state")
    }

    /// Something happens in the home.
    pub fn turn(&mut self, rng: &mut Rng, tally: &mut Tally) {
        let any = 1 + rng.up_to(self.n - 1);
        match rng.below(50) {
            0 => self.event(tally, any, [START, 0, 0], b""),
            1 => self.event(tally, any, [RESTART, 0, 0], b""),
            2..8 => {
                let own = self.leader_or(any);
                self.event(tally, own, [PROPOSE, 0, 0], &command(rng));
            }
            8..20 => self.send(rng, tally, any),
            _ => self.deliver(rng, tally),
        }
    }

    fn leader_or(&self, other: u32) -> u32 {
        (1..=self.n).find(|&own| self.image(own).role == LEADER).unwrap_or(other)
    }

    /// Mostly from where the peer's log ends, as a leader would find out.
    fn send(&mut self, rng: &mut Rng, tally: &mut Tally, peer: u32) {
        let own = self.leader_or(peer);
        let near = self.image(own).length().min(self.image(peer).length());
        let prev = if rng.one_in(4) { at_most(rng, near) } else { near };
        self.event(tally, own, [SEND, peer, prev], b"");
    }

    /// Any text under way; now and then it is lost, or stays and comes again.
    fn deliver(&mut self, rng: &mut Rng, tally: &mut Tally) {
        if self.afloat.is_empty() {
            return;
        }
        let at = rng.below(self.afloat.len() as u64) as usize;
        let (to, text) = if rng.one_in(6) { self.afloat[at].clone() } else { self.afloat.swap_remove(at) };
        if !rng.one_in(12) {
            self.event(tally, to, [RECEIVE, 0, 0], &text);
        }
    }

    fn event(&mut self, tally: &mut Tally, own: u32, [event, a, b]: [u32; 3], input: &[u8]) {
        let state = &mut self.states[own as usize - 1];
        let after = tally.compare(&Call { n: self.n, own, event, a, b, state, input, room: ROOM });
        *state = after.state;
        self.post(after.message);
    }

    fn post(&mut self, text: Vec<u8>) {
        let Ok(message) = message::read(&text).message else { return };
        let to = message.to.0;
        let meant = |hub: &u32| *hub != message.from.0 && (to == 0 || to == *hub);
        self.afloat.extend((1..=self.n).filter(meant).map(|hub| (hub, text.clone())));
        let over = self.afloat.len().saturating_sub(AFLOAT);
        self.afloat.drain(..over);
    }
}
