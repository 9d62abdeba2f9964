//! One step of one hub: from its state and an event to the next state, an outcome and at most one message.
//! All refusals are tested before anything is changed, in the order of rule R32's table.

use crate::command;
use crate::kinds::{Answer, Group, Hub, LIMIT, OUTPUT_LEAST, Outcome, Place, Term};
use crate::message::{self, Append, Body, Entries, Message};
use crate::state::{Role, Row, State, entry_of_row};

/// The number of the event start.
pub const START: u32 = 1;

/// The number of the event propose.
pub const PROPOSE: u32 = 2;

/// The number of the event send.
pub const SEND: u32 = 3;

/// The number of the event restart.
pub const RESTART: u32 = 4;

/// The number of the event receive.
pub const RECEIVE: u32 = 5;

#[derive(Clone, Copy, PartialEq, Eq)]
enum Event {
    Start,
    Propose,
    Send,
    Restart,
    Receive,
}

impl Event {
    fn numbered(number: u32) -> Option<Event> {
        Some(match number {
            START => Event::Start,
            PROPOSE => Event::Propose,
            SEND => Event::Send,
            RESTART => Event::Restart,
            RECEIVE => Event::Receive,
            _ => return None,
        })
    }
}

/// Takes one step of hub `own` of `n`.
///
/// Events: `START`; `PROPOSE` the command in `input`; `SEND` to peer `a` from prev `b`; `RESTART`;
/// `RECEIVE` the text in `input`. Arguments that an event does not use are not looked at.
///
/// Every outcome but 0 leaves `state`. `out` changes only where the message is written, at its start. The place that goes with an outcome is
/// `place::told`'s to find.
#[allow(clippy::too_many_arguments)] // The call's form is given.
pub fn step(
    n: u32,
    own: u32,
    event: u32,
    a: u32,
    b: u32,
    state: &mut [u8],
    input: &[u8],
    out: &mut [u8],
) -> Answer {
    let (event, mut state) = match gate(n, own, event, state, out.len()) {
        Ok(admitted) => admitted,
        Err(outcome) => return Answer::refused(outcome),
    };
    let answer = match event {
        Event::Start => start(&mut state, out),
        Event::Propose => propose(&mut state, input),
        Event::Send => send(&state, Hub(a), Place(b), out),
        Event::Restart => restart(&mut state),
        Event::Receive => receive(&mut state, input, out),
    };
    if answer.outcome == Outcome::Done {
        state.close();
    }
    answer
}

/// Outcomes 1 to 3, which every event shares.
fn gate(n: u32, own: u32, event: u32, bytes: &mut [u8], room: usize) -> Result<(Event, State<'_>), Outcome> {
    let group = Group::new(n, own).ok_or(Outcome::NotKnown)?;
    let event = Event::numbered(event).ok_or(Outcome::NotKnown)?;
    let state = match event {
        Event::Restart => State::open_kept(bytes, group),
        _ => State::open(bytes, group),
    };
    let state = state.ok_or(Outcome::BadState)?;
    if room < OUTPUT_LEAST {
        return Err(Outcome::ShortOutput);
    }
    Ok((event, state))
}

// ---- messages of this hub

/// Writes a message with log rows as its entries.
fn write(state: &State, to: Hub, body: Body, rows: &[Row], out: &mut [u8]) -> usize {
    let message = Message { term: state.head.term, from: state.group.own(), to, body };
    message::put(&message, rows.iter().map(entry_of_row), out)
}

fn write_append_no(state: &State, to: Hub, out: &mut [u8]) -> usize {
    write(state, to, Body::AppendNo { length: state.head.length }, &[], out)
}

// ---- events other than receive

fn start(state: &mut State, out: &mut [u8]) -> Answer {
    if state.head.role == Role::Leader {
        return Answer::refused(Outcome::WrongRole);
    }
    let Some(term) = state.head.term.0.checked_add(1) else {
        return Answer::refused(Outcome::NoTermLeft);
    };
    state.clear_lost();
    state.head.term = Term(term);
    state.head.role = Role::Candidate;
    state.add_voter(state.group.own());
    let request = Body::VoteRequest { last: state.head.length, ballot: state.head.ballot };
    Answer::done(write(state, Hub(0), request, &[], out))
}

fn propose(state: &mut State, input: &[u8]) -> Answer {
    if state.head.role != Role::Leader {
        return Answer::refused(Outcome::WrongRole);
    }
    let Some(command) = proposal(input) else {
        return Answer::refused(Outcome::BadCommand);
    };
    if state.head.length == Place(LIMIT) {
        return Answer::refused(Outcome::LogFull);
    }
    state.add(state.head.term, command);
    state.confirm(state.group.own(), state.head.length);
    Answer::done(0)
}

fn proposal(input: &[u8]) -> Option<&[u8; command::SIZE]> {
    let bytes: &[u8; command::SIZE] = input.try_into().ok()?;
    command::may_propose(bytes).then_some(bytes)
}

fn send(state: &State, peer: Hub, prev: Place, out: &mut [u8]) -> Answer {
    if state.head.role != Role::Leader {
        return Answer::refused(Outcome::WrongRole);
    }
    if !state.group.has_peer(peer) || prev > state.head.length {
        return Answer::refused(Outcome::OutOfRange);
    }
    let rows = state.log_after(prev);
    let append =
        Append { prev, prevterm: state.term_at(prev), chosen: state.head.chosen, count: rows.len() as u32 };
    Answer::done(write(state, peer, Body::Append(append), rows, out))
}

fn restart(state: &mut State) -> Answer {
    state.clear_behind_log();
    Answer::done(0)
}

// ---- receive

/// What a message's own rule did.
enum Effect {
    /// Nothing changed, nothing written.
    Nothing,
    /// The state changed, nothing written.
    Changed,
    /// A message of this many bytes was written.
    Wrote(usize),
}

fn receive(state: &mut State, text: &[u8], out: &mut [u8]) -> Answer {
    let reading = message::read(text);
    let message = match reading.message {
        Ok(message) => message,
        Err(outcome) => return Answer::refused(outcome),
    };
    if not_addressed(state, &message) {
        return Answer::refused(Outcome::NotAddressed);
    }
    if stale(state, &message) {
        return refuse_stale(state, &message, out);
    }
    if contradicting(state, &message) {
        return Answer::refused(Outcome::Contradicting);
    }
    let raised = message.term > state.head.term;
    if raised {
        state.clear_lost();
        state.head.term = message.term;
    }
    match obey(state, &message, reading.entries, out) {
        Effect::Wrote(written) => Answer::done(written),
        Effect::Changed => Answer::done(0),
        Effect::Nothing if raised => Answer::done(0),
        Effect::Nothing => Answer::refused(Outcome::NothingNew),
    }
}

fn not_addressed(state: &State, message: &Message) -> bool {
    let to_us = message.to == state.group.own() || message.to == Hub(0);
    !state.group.has_peer(message.from) || !to_us
}

fn stale(state: &State, message: &Message) -> bool {
    match message.body {
        Body::VoteRequest { .. } => message.term <= state.head.term,
        _ => message.term < state.head.term,
    }
}

/// A stale request or append is answered, so that its writer learns the term.
fn refuse_stale(state: &State, message: &Message, out: &mut [u8]) -> Answer {
    let written = match message.body {
        Body::VoteRequest { .. } => write(state, message.from, Body::VoteNo, &[], out),
        Body::Append(_) => write_append_no(state, message.from, out),
        _ => 0,
    };
    Answer { outcome: Outcome::Stale, written }
}

/// What only a hub that breaks the rules could send at own term.
fn contradicting(state: &State, message: &Message) -> bool {
    let head = &state.head;
    message.term == head.term
        && match (head.role, message.body) {
            (Role::Leader, Body::Append(_)) => true,
            (Role::Leader, Body::AppendYes { end }) => end > head.length,
            (Role::Candidate, Body::VoteYes { last, ballot, .. }) => {
                last != head.length || ballot > head.ballot
            }
            _ => false,
        }
}

/// The rule of the message's type. The message's term is the hub's by now.
fn obey(state: &mut State, message: &Message, entries: &[u8], out: &mut [u8]) -> Effect {
    let from = message.from;
    match message.body {
        Body::VoteRequest { last, ballot } => vote_request(state, from, last, ballot, out),
        Body::VoteYes { ballot, .. } => vote_yes(state, from, ballot, entries),
        Body::Append(append) => receive_append(state, from, &append, entries, out),
        Body::AppendYes { end } => append_yes(state, from, end),
        Body::VoteNo | Body::AppendNo { .. } => Effect::Nothing,
    }
}

/// The whole log's ballot decides, never the last entry's term: that could lose a chosen command. An empty log has nothing to lose, whatever
/// its ballot, and tells ballot 0.
fn vote_request(state: &State, from: Hub, last: Place, ballot: Term, out: &mut [u8]) -> Effect {
    let own = if state.head.length == Place(0) { Term(0) } else { state.head.ballot };
    if own > ballot {
        return Effect::Wrote(write(state, from, Body::VoteNo, &[], out));
    }
    let rows = state.log_after(last);
    let yes = Body::VoteYes { last, ballot: own, count: rows.len() as u32 };
    Effect::Wrote(write(state, from, yes, rows, out))
}

fn vote_yes(state: &mut State, from: Hub, ballot: Term, entries: &[u8]) -> Effect {
    if state.head.role != Role::Candidate || state.has_voter(from) {
        return Effect::Nothing;
    }
    state.add_voter(from);
    state.gather(ballot, Entries::new(entries));
    if state.has_majority() {
        state.lead();
    }
    Effect::Changed
}

fn receive_append(state: &mut State, from: Hub, append: &Append, entries: &[u8], out: &mut [u8]) -> Effect {
    // A candidate's; a follower holds nothing there, and a leader does not come this far.
    state.clear_lost();
    if !fits(state, append) {
        return Effect::Wrote(write_append_no(state, from, out));
    }
    let end = append.end();
    if !(at_ballot(state) && end <= state.head.length) {
        state.replace_after(append.prev, Entries::new(entries));
    }
    state.head.ballot = state.head.term;
    state.head.chosen = state.head.chosen.max(append.chosen);
    Effect::Wrote(write(state, from, Body::AppendYes { end }, &[], out))
}

/// Whether the log already is this term's leader's, as far as it goes.
fn at_ballot(state: &State) -> bool {
    state.head.ballot == state.head.term
}

/// An older log may not be cut: the hub has voted for its places.
fn fits(state: &State, append: &Append) -> bool {
    let length = state.head.length;
    let joins =
        append.prev == Place(0) || append.prev <= length && state.term_at(append.prev) == append.prevterm;
    joins && (at_ballot(state) || append.end() >= length)
}

fn append_yes(state: &mut State, from: Hub, end: Place) -> Effect {
    if state.head.role != Role::Leader || end <= state.confirmed(from) {
        return Effect::Nothing;
    }
    state.confirm(from, end);
    state.head.chosen = state.head.chosen.max(state.confirmed_by_majority());
    Effect::Changed
}
