//! One step of each kind, at logs of several lengths. The state is put back before each call, outside of what is timed.

use crate::cpu::medians_from;
use crate::table;
use compare::binding::both::Call;
use compare::binding::call::{PROPOSE, RECEIVE, RESTART, SEND, START};
use compare::generator::messages::{ROOM, Sample, rows};
use image::{CANDIDATE, Image, LEADER, rows_of_bytes};
use independent::{LIMIT, Outcome, step};
use std::hint::black_box;

/// The logs of the tables, as long as a log may be at most.
pub const LENGTHS: [u32; 5] = [0, 16, 100, 256, LIMIT];

/// The hub's term where it follows or leads; as a candidate it asks at the next one.
const TERM: u32 = 5;

/// The entries of an append or a vote-yes, where they have a size of their own.
const ENTRIES: u32 = 16;

/// A step that takes effect: hub 1 of so many, in this state.
pub struct Step {
    n: u32,
    event: u32,
    state: Vec<u8>,
    input: Vec<u8>,
}

impl Step {
    /// Send is to hub 2, from the start of the log; the other events do not look at these numbers.
    pub fn call(&self) -> Call<'_> {
        let Step { n, event, state, input } = self;
        Call { n: *n, own: 1, event: *event, a: 2, b: 0, state, input, room: ROOM }
    }

    fn new(image: Image, event: u32, input: &[u8]) -> Step {
        Step { n: 5, event, state: image.bytes(), input: input.to_vec() }
    }

    /// Hub 2's message of this type, term and own numbers. What a type does not have is 0.
    fn receive(image: Image, kind: u32, term: u32, own: [u32; 4], entries: Vec<u8>) -> Step {
        let to = if kind == 1 { 0 } else { 1 };
        let [a, b, c, d] = own;
        let sample = Sample { fields: [kind, term, 2, to, a, b, c, d], rows: entries };
        Step::new(image, RECEIVE, &sample.text())
    }
}

// ---- the hub

fn follower(length: u32) -> Image {
    let log = rows_of_bytes(&rows(length, 1, TERM));
    Image { term: TERM, ballot: TERM, chosen: length / 2, log, ..Image::default() }
}

fn candidate(length: u32) -> Image {
    Image { term: TERM + 1, role: CANDIDATE, voters: [1, 0, 0, 0, 0, 0, 0], ..follower(length) }
}

/// Hub 3 has confirmed the whole log, so that hub 2's word makes a majority of five.
fn leader(length: u32) -> Image {
    let confirmed = [length, length / 2, length, 0, 0, 0, 0];
    Image { role: LEADER, confirmed, ..follower(length) }
}

// ---- the steps

const COMMAND: [u8; 16] = [0, 3, 0, 1, 0, 0, 0, 250, 0x3f, 0, 0, 0, 0, 0, 0, 0];

fn propose(length: u32) -> Option<Step> {
    (length < LIMIT).then(|| Step::new(leader(length), PROPOSE, &COMMAND))
}

fn vote_request(length: u32, ballot: u32) -> Step {
    Step::receive(follower(length), 1, TERM + 1, [0, ballot, 0, 0], Vec::new())
}

/// A vote with entries at a group of so many: in one of three it makes the hub a leader.
fn vote_yes(length: u32, n: u32) -> Option<Step> {
    let count = ENTRIES.min(LIMIT - length);
    let own = [length, TERM, 0, count];
    Some(Step { n, ..Step::receive(candidate(length), 2, TERM + 1, own, rows(count, 1, TERM)) })
}

/// Entries right behind the log.
fn append_behind(length: u32) -> Option<Step> {
    let prevterm = follower(length).log.last().map_or(0, |row| row.0);
    let own = [length, prevterm, length, ENTRIES];
    let entries = rows(ENTRIES, prevterm.max(1), TERM);
    (length + ENTRIES <= LIMIT).then(|| Step::receive(follower(length), 4, TERM, own, entries))
}

/// The whole log from its start, at the hub's term or a later one: it stays, or it is replaced.
fn append_whole(length: u32, term: u32) -> Option<Step> {
    let own = [0, 0, length, length];
    Some(Step::receive(follower(length), 4, term, own, rows(length, 1, term)))
}

fn append_yes(length: u32) -> Option<Step> {
    (length > 0).then(|| Step::receive(leader(length), 5, TERM, [length, 0, 0, 0], Vec::new()))
}

/// An append behind a gap, or at a full log behind an entry of another term.
fn append_apart(length: u32) -> Option<Step> {
    let own = [LIMIT.min(length + 1), 1, 0, 0];
    Some(Step::receive(follower(length), 4, TERM, own, Vec::new()))
}

/// A refusal that tells of a later term.
fn refusal(length: u32, kind: u32) -> Option<Step> {
    Some(Step::receive(leader(length), kind, TERM + 1, [0; 4], Vec::new()))
}

type Maker = fn(u32) -> Option<Step>;

/// Each kind of step, and how it is made for a log of a given length; none where there is no such step.
pub const KINDS: [(&str, Maker); 15] = [
    ("start", |length| Some(Step::new(follower(length), START, b""))),
    ("propose", propose),
    ("send of the whole log", |length| Some(Step::new(leader(length), SEND, b""))),
    ("restart", |length| Some(Step::new(leader(length), RESTART, b""))),
    ("vote-request, yes with the whole log", |length| Some(vote_request(length, TERM))),
    ("vote-request, no", |length| (length > 0).then(|| vote_request(length, TERM - 1))),
    ("vote-yes of 16, gathered", |length| vote_yes(length, 5)),
    ("vote-yes of 16, to lead", |length| vote_yes(length, 3)),
    ("vote-no of a later term", |length| refusal(length, 3)),
    ("append of 16 behind the log", append_behind),
    ("append of the whole log, which stays", |length| append_whole(length, TERM)),
    ("append of the whole log, replaced", |length| append_whole(length, TERM + 1)),
    ("append that does not fit", append_apart),
    ("append-yes that moves chosen", append_yes),
    ("append-no of a later term", |length| refusal(length, 6)),
];

/// Every step of the tables.
pub fn all() -> impl Iterator<Item = Step> {
    KINDS.into_iter().flat_map(|(_, make)| LENGTHS.into_iter().filter_map(make))
}

// ---- the figures

/// Both programs' time of a step that both take alike.
fn measure(made: &Step) -> (f64, f64) {
    let call = made.call();
    assert_eq!(call.compare().outcome, Outcome::Done, "the step takes effect");
    let Call { n, own, event, a, b, state, input, .. } = call;
    let [mut out, mut other] = [vec![0; ROOM], vec![0; ROOM]];
    let ours = |state: &mut [u8]| {
        black_box(compare::binding::step(n, own, event, a, b, state, black_box(input), &mut out));
    };
    let theirs = |state: &mut [u8]| {
        black_box(step::step(n, own, event, a, b, state, black_box(input), &mut other).written);
    };
    medians_from(state, 1_500, ours, theirs)
}

fn cell(make: Maker, length: u32) -> String {
    make(length).map(|made| table::cell(measure(&made))).unwrap_or_default()
}

pub fn print() {
    let columns = LENGTHS.map(|length| format!("log of {}", table::number(length.into())));
    table::head("One step", &table::wide("", &columns));
    for (what, make) in KINDS {
        table::row(&table::wide(what, &LENGTHS.map(|length| cell(make, length))));
    }
}
