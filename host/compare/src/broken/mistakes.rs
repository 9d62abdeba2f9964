//! For each scenario a hub that makes the mistake it is about: the independent program with that mistake put around its step. So one sees
//! that the scenario's text would not come out of such a hub.

use crate::binding::Answer;
use crate::binding::call::{Call, RECEIVE, Step, independent};
use crate::broken::{
    chooses_with_one_less, compares_when_empty, counts_vote_twice, cuts_longer_log, heard,
    keeps_lesser_ballot, said, tells_nothing_behind_last, trusts_lost_parts, votes_for_lower_ballot,
};
use crate::checker::message::{Kind, Message};
use image::{FOLLOWER, Image, LEADER, LOST, TERM_AT, confirmed_at, put_number};
use independent::Outcome;

/// Each scenario with its mistake; some scenarios are about several.
pub const MISTAKES: [(&str, Step); 19] = [
    ("append-at-leader", steps_down),
    ("divergent-logs", cuts_longer_log),
    ("divergent-logs", keeps_lesser_ballot),
    ("divergent-logs", votes_for_lower_ballot),
    ("empty-leader", compares_when_empty),
    ("empty-leader", tells_its_own_ballot),
    ("end-beyond-log", takes_end_beyond_log),
    ("late-refusal", lowers_confirmed),
    ("leader-returns", cuts_longer_log),
    ("nothing-behind-last", tells_nothing_behind_last),
    ("old-entry-chosen", votes_for_lower_ballot),
    ("old-entry-not-chosen", chooses_with_one_less),
    ("own-end", acknowledges_own_end),
    ("power-cut", trusts_lost_parts),
    ("power-cut", takes_torn_append),
    ("repeated-vote", counts_vote_twice),
    ("second-candidate", votes_at_own_term),
    ("smaller-term", votes_at_own_term),
    ("two-ballots", keeps_lesser_ballot),
];

/// Whoever sends an append leads, so the hub does not.
fn steps_down(call: &mut Call) -> Answer {
    if heard(call, Kind::Append).is_some_and(|(state, _)| state.role == LEADER) {
        call.state[LOST].fill(0);
    }
    independent(call)
}

/// A hub whose log is empty says yes, and writes its own ballot.
fn tells_its_own_ballot(call: &mut Call) -> Answer {
    let asked = heard(call, Kind::VoteRequest);
    let answer = independent(call);
    match asked {
        Some((state, _)) => {
            said(call, answer, Kind::VoteYes, |yes| yes.with_number("ballot", state.ballot).text())
        }
        _ => answer,
    }
}

/// An end beyond the leader's log counts as its whole log.
fn takes_end_beyond_log(call: &mut Call) -> Answer {
    match heard(call, Kind::AppendYes) {
        Some((state, message)) if state.role == LEADER => {
            let end = message.number("end").min(state.length());
            let text = message.with_number("end", end).text();
            independent(&mut call.with_input(text.as_bytes()))
        }
        _ => independent(call),
    }
}

/// A refusal says how far the follower is, whenever it comes.
fn lowers_confirmed(call: &mut Call) -> Answer {
    match heard(call, Kind::AppendNo) {
        Some((state, message)) if state.role == LEADER && message.term().0 == state.term => {
            put_number(call.state, confirmed_at(message.from().0), message.number("length"));
            Answer::new(Outcome::Done, 0)
        }
        _ => independent(call),
    }
}

/// Every append is acknowledged, with the end of the follower's own log.
fn acknowledges_own_end(call: &mut Call) -> Answer {
    let appended = heard(call, Kind::Append);
    let answer = independent(call);
    let (Some((_, append)), Some(state), Outcome::Done) = (appended, Image::read(call.state), answer.outcome)
    else {
        return answer;
    };
    let (term, from, to, end) = (state.term, call.own.0, append.from().0, state.length());
    let text = format!("type=append-yes\nterm={term}\nfrom={from}\nto={to}\nend={end}\n");
    call.out[..text.len()].copy_from_slice(text.as_bytes());
    Answer { second: text.len() as u32, ..answer }
}

/// Of an append whose end is missing the entries that came whole are taken.
fn takes_torn_append(call: &mut Call) -> Answer {
    let lines = call.input.iter().rposition(|&byte| byte == b'\n').map_or(0, |last| last + 1);
    match Message::read(&call.input[..lines]) {
        Some(message) if call.event == RECEIVE && message.kind == Kind::Append => {
            let count = message.entries.len() as u32;
            let text = message.with_number("count", count).text();
            independent(&mut call.with_input(text.as_bytes()))
        }
        _ => independent(call),
    }
}

/// A follower says yes to whoever asks at its term, as if it had not heard of that term.
fn votes_at_own_term(call: &mut Call) -> Answer {
    match heard(call, Kind::VoteRequest) {
        Some((state, message)) if state.role == FOLLOWER && message.term().0 == state.term => {
            put_number(call.state, TERM_AT, state.term - 1);
            independent(call)
        }
        _ => independent(call),
    }
}
