//! Broken hubs: the independent program with one rule broken. The program itself stays as it is; what a variant changes
//! lies around its step: the state or the message on the way in, the state or the text on the way out. Each rule is broken as
//! a program that never knew of it would break it, so states stay legal and the hub goes on.

pub mod mistakes;

use crate::binding::Answer;
use crate::binding::call::{Call, RECEIVE, RESTART, Step, independent};
use crate::checker::message::{Kind, Message};
use image::{
    BALLOT_AT, CANDIDATE, CHOSEN_AT, Image, LEADER, LENGTH_AT, LOST, PLACES, ROLE_AT, ROW_SIZE, confirmed_at,
    number_at, put_number, row_at,
};
use independent::{Outcome, message};

/// Each variant by its name.
pub const VARIANTS: [(&str, Step); 9] = [
    ("an append that cuts a longer log", cuts_longer_log),
    ("a repeated vote-yes counted twice", counts_vote_twice),
    ("votes given to a lower ballot", votes_for_lower_ballot),
    ("ballot 0 told with nothing behind last", tells_nothing_behind_last),
    ("the lesser ballot kept when gathering", keeps_lesser_ballot),
    ("chosen moved with one vote less than a majority", chooses_with_one_less),
    ("an acknowledged end beyond what was stored", acknowledges_too_much),
    ("a restart that forgets the ballot", forgets_ballot),
    ("a restart that trusts what was lost", trusts_lost_parts),
];

/// The hub's state and the message, if the hub receives one of this type that is legal and not below its term.
pub(crate) fn heard(call: &Call, kind: Kind) -> Option<(Image, Message)> {
    let state = Image::read(call.state)?;
    let legal = call.event == RECEIVE && message::read(call.input).message.is_ok();
    let message = Message::read(call.input).filter(|_| legal)?;
    (message.kind == kind && message.term().0 >= state.term).then_some((state, message))
}

/// The answer with another text in place of its message, if that is of this type.
fn said(call: &mut Call, answer: Answer, kind: Kind, other: impl Fn(Message) -> String) -> Answer {
    match Message::read(&call.out[..answer.second as usize]) {
        Some(message) if message.kind == kind => {
            let text = other(message);
            call.out[..text.len()].copy_from_slice(text.as_bytes());
            Answer { second: text.len() as u32, ..answer }
        }
        _ => answer,
    }
}

/// As Raft does: whatever stands behind the append's last entry is removed, once the entry at prev agrees.
pub(crate) fn cuts_longer_log(call: &mut Call) -> Answer {
    if let Some((state, message)) = heard(call, Kind::Append) {
        let (prev, prevterm) = (message.number("prev") as usize, message.number("prevterm"));
        let joins = prev == 0 || state.log.get(prev - 1).is_some_and(|entry| entry.0 == prevterm);
        let end = prev + message.entries.len();
        let leads = state.role == LEADER && message.term().0 == state.term;
        if joins && end < state.log.len() && !leads {
            cut(call.state, &state, end as u32);
        }
    }
    independent(call)
}

/// Nothing is left of what a restart would lose either: who takes an append is a follower.
fn cut(bytes: &mut [u8], state: &Image, end: u32) {
    let rows = (state.log.len() + state.gathered.len()) as u32;
    bytes[row_at(end + 1)..row_at(rows + 1)].fill(0);
    bytes[LOST].fill(0);
    put_number(bytes, LENGTH_AT, end);
    put_number(bytes, CHOSEN_AT, state.chosen.min(end));
}

/// Votes are counted and not their voters: a voter heard before counts as one that is still missing.
pub(crate) fn counts_vote_twice(call: &mut Call) -> Answer {
    let Some((state, message)) = heard(call, Kind::VoteYes) else { return independent(call) };
    let has_voted = |hub: u32| state.voters[hub as usize - 1] == 1;
    if state.role != CANDIDATE || !has_voted(message.from().0) {
        return independent(call);
    }
    let missing = (1..=call.n).find(|&hub| !has_voted(hub));
    let text = message.with_number("from", missing.expect("less than a majority among the voters")).text();
    independent(&mut call.with_input(text.as_bytes()))
}

/// The asked hub does not compare ballots. That alone is safe: the candidate refuses its vote with 7.
pub fn says_yes_to_lower_ballot(call: &mut Call) -> Answer {
    match heard(call, Kind::VoteRequest) {
        Some((state, message)) if message.term().0 > state.term => {
            let ballot = state.ballot.max(message.number("ballot"));
            let text = message.with_number("ballot", ballot).text();
            independent(&mut call.with_input(text.as_bytes()))
        }
        _ => independent(call),
    }
}

/// Neither the asked hub nor the candidate compares ballots.
pub(crate) fn votes_for_lower_ballot(call: &mut Call) -> Answer {
    match heard(call, Kind::VoteYes) {
        Some((state, message)) if state.role == CANDIDATE && message.term().0 == state.term => {
            // With the highest ballot that a candidate may have, it takes any vote. A leader has its term for its ballot.
            put_number(call.state, BALLOT_AT, state.term - 1);
            let answer = independent(call);
            if call.state[ROLE_AT] != LEADER {
                put_number(call.state, BALLOT_AT, state.ballot);
            }
            answer
        }
        _ => says_yes_to_lower_ballot(call),
    }
}

/// A log that has nothing behind last is taken for an empty one: the hub says yes whatever its ballot, and tells ballot 0.
pub(crate) fn tells_nothing_behind_last(call: &mut Call) -> Answer {
    match heard(call, Kind::VoteRequest) {
        Some((state, message)) if state.length() <= message.number("last") => {
            let answer = says_yes_to_lower_ballot(call);
            said(call, answer, Kind::VoteYes, |yes| yes.with_number("ballot", 0).text())
        }
        _ => independent(call),
    }
}

/// A hub whose log is empty compares its ballot and tells it, as all others do. So did hubs before version 1.2.0: it blocks votes, and does
/// no other harm.
pub fn compares_when_empty(call: &mut Call) -> Answer {
    let Some((state, message)) = heard(call, Kind::VoteRequest) else { return independent(call) };
    let refuses = state.ballot > message.number("ballot");
    let answer = independent(call);
    said(call, answer, Kind::VoteYes, |yes| {
        let [term, from, to] = ["term", "from", "to"].map(|key| yes.number(key));
        match refuses {
            true => format!("type=vote-no\nterm={term}\nfrom={from}\nto={to}\n"),
            false => yes.with_number("ballot", state.ballot).text(),
        }
    })
}

/// At each place that was held and is told of again, the pair with the lesser ballot stays.
pub(crate) fn keeps_lesser_ballot(call: &mut Call) -> Answer {
    let before = heard(call, Kind::VoteYes);
    let answer = independent(call);
    let Some((state, message)) = before.filter(|_| answer.outcome == Outcome::Done) else { return answer };
    let ballot = message.number("ballot");
    for (place, (held, entry)) in (state.length() + 1..).zip(state.gathered.iter().zip(&message.entries)) {
        let lesser = if ballot < held.0 { (ballot, entry.1) } else { *held };
        let row = &mut call.state[row_at(place)..][..ROW_SIZE];
        row[4..].copy_from_slice(&lesser.1);
        // Once the hub leads, the row has its term.
        if number_at(row, 0) < state.term {
            put_number(row, 0, lesser.0);
        }
    }
    answer
}

pub(crate) fn chooses_with_one_less(call: &mut Call) -> Answer {
    let heard = heard(call, Kind::AppendYes);
    let answer = independent(call);
    if let (Some(_), Some(state), Outcome::Done) = (heard, Image::read(call.state), answer.outcome) {
        let mut confirmed = state.confirmed;
        confirmed.sort_by(|one, other| other.cmp(one));
        let too_few = call.n as usize / 2;
        put_number(call.state, CHOSEN_AT, state.chosen.max(confirmed[too_few - 1]));
    }
    answer
}

/// One place more is acknowledged than the append had.
fn acknowledges_too_much(call: &mut Call) -> Answer {
    let answer = independent(call);
    said(call, answer, Kind::AppendYes, |yes| {
        let end = (yes.number("end") + 1).min(PLACES);
        yes.with_number("end", end).text()
    })
}

/// The ballot is not stored: after a restart it is taken to be the term of the log's last entry.
fn forgets_ballot(call: &mut Call) -> Answer {
    let answer = independent(call);
    if let (RESTART, Some(state)) = (call.event, Image::read(call.state)) {
        put_number(call.state, BALLOT_AT, state.log.last().map_or(0, |entry| entry.0));
    }
    answer
}

/// Who finds itself a leader after a restart goes on as one, with the confirmed lengths that it finds, cut to what a leader's may be.
pub(crate) fn trusts_lost_parts(call: &mut Call) -> Answer {
    let found = call.state.to_vec();
    let answer = independent(call);
    let Some(kept) = Image::read(call.state).filter(|_| call.event == RESTART) else { return answer };
    if found[ROLE_AT] == LEADER && kept.term > 0 && kept.ballot == kept.term {
        let mut leads = Image { role: LEADER, ..kept };
        for hub in 1..=call.n {
            leads.confirmed[hub as usize - 1] = number_at(&found, confirmed_at(hub)).min(leads.length());
        }
        leads.confirmed[call.own.0 as usize - 1] = leads.length();
        call.state.copy_from_slice(&leads.bytes());
    }
    answer
}
