//! The check of a state, with which every step begins: a propose at a follower comes to nothing else. One state after another is checked,
//! with commands of random kinds, so that no branch is foretold from the call before.

use crate::cpu::medians;
use crate::steps::LENGTHS;
use crate::table;
use compare::binding::Answer;
use compare::binding::call::{Call, PROPOSE, Step, exported, independent};
use compare::generator::messages::ROOM;
use compare::generator::rng::{Rng, seed};
use compare::generator::states::rising;
use image::Image;
use independent::{Hub, Outcome};

const TERM: u32 = 5;

/// How many states take turns: many kinds, in few enough bytes to stay in the cache.
const STATES: usize = 16;

fn followers(rng: &mut Rng, length: u32) -> Vec<Vec<u8>> {
    let mut follower = || {
        let log = rising(rng, length, 1, TERM);
        Image { term: TERM, ballot: TERM, log, ..Image::default() }.bytes()
    };
    (0..STATES).map(|_| follower()).collect()
}

/// Checks the next of the states at each call.
fn checks(step: Step, mut states: Vec<Vec<u8>>) -> impl FnMut() {
    let mut out = vec![0; ROOM];
    let mut turns = (0..STATES).cycle();
    move || {
        let state = &mut states[turns.next().expect("a turn")];
        let call =
            &mut Call { n: 5, own: Hub(1), event: PROPOSE, a: 0, b: 0, state, input: b"", out: &mut out };
        assert_eq!(step(call), Answer::new(Outcome::WrongRole, 0));
    }
}

pub fn print() {
    table::head("Checking a state", &["", "proved", "plain Rust", "ratio"]);
    let rng = &mut Rng::quiet(seed());
    for length in LENGTHS {
        let states = followers(rng, length);
        let calls = 2_000_000 / (length + 40);
        let times = medians(calls, checks(exported, states.clone()), checks(independent, states));
        table::times(&format!("{} entries", table::number(length.into())), times);
    }
}
