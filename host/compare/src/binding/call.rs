//! One call of a hub's step, in one form for the proved library, for the independent program, and for broken variants of it.

use crate::binding::Answer;
pub use independent::step::{PROPOSE, RECEIVE, RESTART, SEND, START};
use independent::{Hub, place};

/// What a hub is called with.
pub struct Call<'a> {
    pub n: u32,
    pub own: Hub,
    pub event: u32,
    pub a: u32,
    pub b: u32,
    pub state: &'a mut [u8],
    pub input: &'a [u8],
    pub out: &'a mut [u8],
}

impl Call<'_> {
    /// The same call with another input.
    pub fn with_input<'b>(&'b mut self, input: &'b [u8]) -> Call<'b> {
        let Call { n, own, event, a, b, .. } = *self;
        Call { n, own, event, a, b, state: self.state, input, out: self.out }
    }
}

/// Something that takes a hub's step: answers the outcome, where a received text is wrong, and how many bytes of message were written.
pub type Step = fn(&mut Call) -> Answer;

/// The proved library's step.
pub fn exported(call: &mut Call) -> Answer {
    crate::binding::step(call.n, call.own.0, call.event, call.a, call.b, call.state, call.input, call.out)
}

/// The independent program's step.
pub fn independent(call: &mut Call) -> Answer {
    let answer = independent::step::step(
        call.n, call.own.0, call.event, call.a, call.b, call.state, call.input, call.out,
    );
    let place = place::told(answer.outcome, call.input) as u32;
    Answer { outcome: answer.outcome, place, second: answer.written as u32 }
}
