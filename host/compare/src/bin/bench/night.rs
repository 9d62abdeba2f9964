//! A whole night: an election, and commands one after the other, until every hub knows that all are chosen. Every message goes through its text.

use crate::cpu::medians;
use crate::table;
use compare::binding::Answer;
use compare::binding::call::{Call, PROPOSE, RECEIVE, SEND, START, Step, exported, independent};
use compare::generator::messages::ROOM;
use image::{CHOSEN_AT, STATE_SIZE, number_at};
use independent::{Hub, Outcome};

/// Hub 1 leads.
const LEADER: u32 = 1;

struct Night {
    step: Step,
    n: u32,
    commands: u32,
    states: Vec<Vec<u8>>,
    steps: u32,
    /// The leader's text, the answer to it, and what the leader has to say to that: nothing.
    asked: Vec<u8>,
    answered: Vec<u8>,
    closed: Vec<u8>,
}

impl Night {
    fn new(step: Step, n: u32, commands: u32) -> Night {
        let states = vec![vec![0; STATE_SIZE]; n as usize];
        let [asked, answered, closed] = [(); 3].map(|()| vec![0; ROOM]);
        Night { step, n, commands, states, steps: 0, asked, answered, closed }
    }

    /// An event at the leader, its text to be found in `asked`.
    fn lead(&mut self, [event, a, b]: [u32; 3], input: &[u8]) -> usize {
        self.steps += 1;
        let state = &mut self.states[LEADER as usize - 1];
        let call = &mut Call { n: self.n, own: Hub(LEADER), event, a, b, state, input, out: &mut self.asked };
        let answer = (self.step)(call);
        assert_eq!(answer.outcome, Outcome::Done, "event {event} of the leader");
        answer.second as usize
    }

    /// A hub hears the leader's text, and the leader its answer: a vote that comes after the majority changes nothing.
    fn exchange(&mut self, peer: u32, length: usize) {
        self.steps += 2;
        let Night { step, n, states, asked, answered, closed, .. } = self;
        let mut hears = |own: u32, input: &[u8], out: &mut [u8]| {
            let state = &mut states[own as usize - 1];
            step(&mut Call { n: *n, own: Hub(own), event: RECEIVE, a: 0, b: 0, state, input, out })
        };
        let answer = hears(peer, &asked[..length], answered);
        assert_eq!(answer.outcome, Outcome::Done, "hub {peer} hears the leader");
        let Answer { outcome, .. } = hears(LEADER, &answered[..answer.second as usize], closed);
        assert!([Outcome::Done, Outcome::NothingNew].contains(&outcome), "the leader hears hub {peer}");
    }

    fn elect(&mut self) {
        let length = self.lead([START, 0, 0], b"");
        (2..=self.n).for_each(|peer| self.exchange(peer, length));
    }

    /// Tells every hub what stands behind a place.
    fn spread(&mut self, prev: u32) {
        for peer in 2..=self.n {
            let length = self.lead([SEND, peer, prev], b"");
            self.exchange(peer, length);
        }
    }

    fn run(mut self) -> u32 {
        self.elect();
        for place in 0..self.commands {
            self.lead([PROPOSE, 0, 0], &command(place));
            self.spread(place);
        }
        // Once more without entries: the last command is chosen.
        self.spread(self.commands);
        assert!(
            self.states.iter().all(|state| number_at(state, CHOSEN_AT) == self.commands),
            "all is chosen everywhere"
        );
        self.steps
    }
}

/// A buzz, another for each place.
fn command(place: u32) -> [u8; 16] {
    let [high, low] = (250 + place as u16).to_be_bytes();
    [0, 3, 0, 1, 0, 0, high, low, 0x3f, 0, 0, 0, 0, 0, 0, 0]
}

pub fn print() {
    table::head("A night", &["", "proved", "plain Rust", "ratio"]);
    for (commands, n) in [200, 800].into_iter().flat_map(|commands| [3, 5, 7].map(|n| (commands, n))) {
        let steps = Night::new(exported, n, commands).run();
        let night = |step: Step| assert_eq!(Night::new(step, n, commands).run(), steps);
        let times = medians(2, || night(exported), || night(independent));
        table::times(&format!("{commands} commands, {n} hubs, {} steps", table::number(steps.into())), times);
    }
}
