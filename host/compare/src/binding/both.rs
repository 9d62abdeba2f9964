//! One call of the step made to both programs, every lent byte compared; and a count of what came of the calls.

use crate::binding::Answer;
use crate::binding::call::RECEIVE;
use crate::binding::outcomes::Outcomes;
use crate::binding::watched::Watched;
use crate::generator::messages::fields_of;
use image::{BALLOT_AT, HEAD_SIZE, LENGTH_AT, number_at};
use independent::message::{self, Body, Message};
use independent::{Outcome, place, step};

/// A call of the step, with all that it lends. `room` is the size of the output.
#[derive(Clone, Copy)]
pub struct Call<'a> {
    pub n: u32,
    pub own: u32,
    pub event: u32,
    pub a: u32,
    pub b: u32,
    pub state: &'a [u8],
    pub input: &'a [u8],
    pub room: usize,
}

/// What both programs answered: the outcome, the state after it, and the message.
pub struct After {
    pub outcome: Outcome,
    pub state: Vec<u8>,
    pub message: Vec<u8>,
}

/// What stands in an output before a call. Neighbours differ, so that a byte written one place off is seen.
fn before(room: usize) -> Vec<u8> {
    (0..room).map(|index| index as u8 ^ 0x5a).collect()
}

impl Call<'_> {
    /// Makes the call to both programs, and compares the answers and every byte.
    pub fn compare(&self) -> After {
        let Call { n, own, event, a, b, .. } = *self;
        let out = before(self.room);
        let mut ours = [self.state, self.input, &out].map(Watched::new);
        let [state, input, lent] = &mut ours;
        let answered = crate::binding::step(n, own, event, a, b, state.lend(), input.lend(), lent.lend());
        let mut theirs = [self.state.to_vec(), out];
        let [state, lent] = &mut theirs;
        let answer = step::step(n, own, event, a, b, state, self.input, lent);
        let place = place::told(answer.outcome, self.input) as u32;
        let expected = Answer { outcome: answer.outcome, place, second: answer.written as u32 };
        assert!(answered == expected, "{answered:?}, not {expected:?}, is answered to {}", self.shown());
        let [state, lent] = theirs;
        assert!(ours[0].bytes() == state, "another state after {}", self.shown());
        assert!(ours[1].bytes() == self.input, "another input after {}", self.shown());
        assert!(ours[2].bytes() == lent, "another output after {}", self.shown());
        After { outcome: answer.outcome, state, message: lent[..answer.written].to_vec() }
    }

    /// The call in words; of the state, its head.
    fn shown(&self) -> String {
        let Call { n, own, event, a, b, state, input, room } = self;
        let head = &state[..state.len().min(HEAD_SIZE)];
        let text = String::from_utf8_lossy(input);
        format!(
            "hub {own} of {n}, event {event}, a {a}, b {b}, {room} bytes of output, input {text:?}, head {head:02x?}"
        )
    }
}

/// Whether a request is for an empty log whose ballot is above it.
fn is_unblocked(state: &[u8], message: &Message) -> bool {
    let [ballot, length] = [BALLOT_AT, LENGTH_AT].map(|at| number_at(state, at));
    matches!(message.body, Body::VoteRequest { ballot: asked, .. } if length == 0 && ballot > asked.0)
}

/// How many calls there were, and how many of each outcome; of those that were done, of each event, of each type received, and of requests
/// that an empty log with a higher ballot received.
#[derive(Debug, Default)]
pub struct Tally {
    pub calls: u64,
    pub outcomes: Outcomes,
    pub done_by_event: [u64; 6],
    pub done_by_type: [u64; 7],
    pub unblocked: u64,
}

impl Tally {
    /// Compares a call, and counts it.
    pub fn compare(&mut self, call: &Call) -> After {
        let after = call.compare();
        self.calls += 1;
        self.outcomes[after.outcome] += 1;
        if after.outcome == Outcome::Done {
            self.done_by_event[call.event as usize] += 1;
            if call.event == RECEIVE {
                let message = message::read(call.input).message.expect("a message that was taken");
                self.done_by_type[fields_of(&message)[0] as usize] += 1;
                self.unblocked += u64::from(is_unblocked(call.state, &message));
            }
        }
        after
    }
}
