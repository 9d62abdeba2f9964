//! Random legal states: every role, every size of a group, logs of every length, terms from 0 to the largest.

use crate::generator::rng::Rng;
use image::{CANDIDATE, Command, Image, LEADER, Row, number_at};
use independent::command::FELT_LEAST;
use independent::{Group, LIMIT};

/// One of the groups that a home may have, seen from one of its hubs.
pub fn group(rng: &mut Rng) -> Group {
    let n = rng.pick(&[3, 5, 7]);
    Group::new(n, 1 + rng.up_to(n - 1)).expect("a group")
}

/// A random legal state of the group's own hub.
pub fn legal(rng: &mut Rng, group: Group) -> Image {
    let term = any_term(rng);
    of_term(rng, group, term)
}

/// The same at this term.
pub fn of_term(rng: &mut Rng, group: Group, term: u32) -> Image {
    match rng.below(3) {
        0 if term > 0 => candidate(rng, group, term),
        1 if term > 0 => leader(rng, group, term),
        _ => follower(rng, term),
    }
}

fn any_term(rng: &mut Rng) -> u32 {
    match rng.below(3) {
        0 => rng.pick(&[0, 1, u32::MAX - 1, u32::MAX]),
        1 => rng.up_to(9),
        _ => rng.next() as u32,
    }
}

pub fn follower(rng: &mut Rng, term: u32) -> Image {
    let ballot = at_most(rng, term);
    kept(rng, term, ballot)
}

/// A candidate of a term of at least 1.
pub fn candidate(rng: &mut Rng, group: Group, term: u32) -> Image {
    let ballot = at_most(rng, term - 1);
    let mut image = Image { role: CANDIDATE, ..kept(rng, term, ballot) };
    image.voters = voters(rng, group);
    // At term 1 no ballot is below the term and at least 1.
    let room = if term == 1 { 0 } else { LIMIT - image.length() };
    let count = if rng.one_in(6) { room } else { some_length(rng).min(room) };
    image.gathered = (0..count).map(|_| (1 + at_most(rng, term - 2), command(rng))).collect();
    image
}

/// A leader of a term of at least 1.
pub fn leader(rng: &mut Rng, group: Group, term: u32) -> Image {
    let mut image = Image { role: LEADER, ..kept(rng, term, term) };
    let length = image.length();
    for confirmed in &mut image.confirmed[..group.size()] {
        *confirmed = at_most(rng, length);
    }
    image.confirmed[group.own().0 as usize - 1] = length;
    image
}

fn kept(rng: &mut Rng, term: u32, ballot: u32) -> Image {
    let length = if ballot == 0 { 0 } else { some_length(rng) };
    let log = rising(rng, length, 1, ballot);
    Image { term, ballot, chosen: at_most(rng, length), log, ..Image::default() }
}

/// The hub itself and others, less than a majority, from any part of the group.
fn voters(rng: &mut Rng, group: Group) -> [u8; 7] {
    let mut voters = [0; 7];
    voters[group.own().0 as usize - 1] = 1;
    for _ in 1..group.majority() - 1 {
        voters[rng.below(group.size() as u64) as usize] = 1;
    }
    voters
}

/// Lengths at their edges, and small ones more often than large ones.
fn some_length(rng: &mut Rng) -> u32 {
    match rng.below(6) {
        0 => rng.pick(&[LIMIT - 1, LIMIT, LIMIT]),
        1 => rng.up_to(LIMIT),
        2 => rng.pick(&[0, 1]),
        _ => rng.up_to(12),
    }
}

/// A number up to another, often at or next to one of its edges.
pub fn at_most(rng: &mut Rng, most: u32) -> u32 {
    match rng.below(6) {
        0 => 0,
        1 => most.min(1),
        2 => most.saturating_sub(1),
        3 => most,
        _ => rng.up_to(most),
    }
}

/// So many entries, their terms never falling, from `least` to `most`; none where there is no such term.
pub fn rising(rng: &mut Rng, count: u32, least: u32, most: u32) -> Vec<Row> {
    if least > most {
        return Vec::new();
    }
    let mut term = least + at_most(rng, most - least);
    let mut rows = Vec::with_capacity(count as usize);
    for _ in 0..count {
        if rng.one_in(4) {
            term += rng.up_to((most - term).min(3));
        }
        rows.push((term, command(rng)));
    }
    rows
}

/// A legal command of any kind.
pub fn command(rng: &mut Rng) -> Command {
    let kind = rng.below(3) as u32;
    let [duration, a, b] = match kind {
        0 => [0; 3],
        1 => [duration(rng), gain(rng), 0],
        _ => [duration(rng), gain(rng), gain(rng)],
    };
    bytes_of(1 + rng.below(64) as u32, kind, duration as i32, a, b)
}

/// A command that may be proposed.
pub fn proposal(rng: &mut Rng) -> Command {
    loop {
        let command = command(rng);
        if !is_short(&command) {
            return command;
        }
    }
}

/// A legal command that may not be proposed.
pub fn short(rng: &mut Rng) -> Command {
    loop {
        let command = command(rng);
        if is_short(&command) {
            return command;
        }
    }
}

/// Whether a legal command is too short to be proposed. A stop, which has no duration, is not.
fn is_short(command: &Command) -> bool {
    (1..FELT_LEAST as u32).contains(&number_at(command, 4))
}

/// The bytes of a command with these numbers, whether it is legal or not.
pub fn bytes_of(motor: u32, kind: u32, duration: i32, a: u32, b: u32) -> Command {
    let mut bytes = [0; 16];
    bytes[0..2].copy_from_slice(&(motor as u16).to_be_bytes());
    bytes[2..4].copy_from_slice(&(kind as u16).to_be_bytes());
    bytes[4..8].copy_from_slice(&duration.to_be_bytes());
    bytes[8..12].copy_from_slice(&a.to_be_bytes());
    bytes[12..16].copy_from_slice(&b.to_be_bytes());
    bytes
}

/// Up to and from the shortest that may be proposed, also those whose low byte alone would be too short.
const DURATIONS: [u32; 6] = [1, 19, 20, 256, 275, 276];

fn duration(rng: &mut Rng) -> u32 {
    if rng.one_in(3) { rng.pick(&DURATIONS) } else { 1 + at_most(rng, 599_999) }
}

fn gain(rng: &mut Rng) -> u32 {
    at_most(rng, 0x3f80_0000)
}
