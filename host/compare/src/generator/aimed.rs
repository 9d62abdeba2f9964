//! Random messages aimed at a hub in a given state: its own term, lengths and ballots, and what lies next to them.

use crate::generator::messages::Sample;
use crate::generator::rng::Rng;
use crate::generator::states::{at_most, rising};
use image::{Image, bytes_of_rows};
use independent::{Group, LIMIT};

/// A legal message for this hub, of any of the six types.
pub fn message(rng: &mut Rng, group: Group, image: &Image) -> Sample {
    let kind = 1 + rng.up_to(5);
    let term = term(rng, image);
    let from = 1 + rng.up_to(group.size() as u32 - 1);
    let from = if from == group.own().0 { from % group.size() as u32 + 1 } else { from };
    let to = if kind == 1 { 0 } else { group.own().0 };
    let mut sample = match kind {
        1 => request(rng, image, term),
        2 => yes(rng, image, term),
        3 => own_numbers([0; 3]),
        4 => append(rng, image, term),
        5 => own_numbers([end(rng, image, from), 0, 0]),
        _ => own_numbers([near(rng, image.length()), 0, 0]),
    };
    sample.fields[..4].copy_from_slice(&[kind, term, from, to]);
    sample
}

/// The hub's own term more often than one below or above it.
fn term(rng: &mut Rng, image: &Image) -> u32 {
    let own = image.term.max(1);
    match rng.below(8) {
        0 => 1 + at_most(rng, own - 1),
        1 => own.saturating_sub(1).max(1),
        2 => own.saturating_add(1),
        3 => own.saturating_add(at_most(rng, u32::MAX - own)),
        _ => own,
    }
}

fn own_numbers(own: [u32; 3]) -> Sample {
    Sample { fields: [0, 0, 0, 0, own[0], own[1], own[2], 0], rows: Vec::new() }
}

/// A place that is the given one more often than not, or next to it, or any.
fn near(rng: &mut Rng, place: u32) -> u32 {
    let some = match rng.below(10) {
        0 => place.saturating_sub(1),
        1 => place + 1,
        2 => at_most(rng, LIMIT),
        3 => at_most(rng, place),
        _ => place,
    };
    some.min(LIMIT)
}

/// A ballot below the message's term: the hub's own more often than not, or next to it, or any.
fn ballot(rng: &mut Rng, own: u32, term: u32) -> u32 {
    let some = match rng.below(8) {
        0 => own.saturating_sub(1),
        1 => own.saturating_add(1),
        2 => at_most(rng, term - 1),
        3 => at_most(rng, own),
        _ => own,
    };
    some.min(term - 1)
}

/// At an empty log, whose ballot does not decide, with any ballot up to it or any at all; else with one about it.
fn request(rng: &mut Rng, image: &Image, term: u32) -> Sample {
    let most = rng.pick(&[image.ballot.min(term - 1), term - 1]);
    let ballot = if image.log.is_empty() { at_most(rng, most) } else { ballot(rng, image.ballot, term) };
    let last = if ballot == 0 { 0 } else { near(rng, image.length()) };
    own_numbers([last, ballot, 0])
}

fn yes(rng: &mut Rng, image: &Image, term: u32) -> Sample {
    let ballot = ballot(rng, image.ballot, term);
    let last = near(rng, image.length());
    let count = if ballot == 0 { 0 } else { count(rng, last, last + image.gathered.len() as u32) };
    let rows = bytes_of_rows(&rising(rng, count, 1, ballot));
    Sample { fields: [0, 0, 0, 0, last, ballot, 0, count], rows }
}

/// How many entries follow a place: to another place more often than not, or next to it, or any number, or none.
fn count(rng: &mut Rng, after: u32, to: u32) -> u32 {
    let exact = to.saturating_sub(after);
    let some = match rng.below(8) {
        0 => 0,
        1 => exact.saturating_sub(1),
        2 => exact + 1,
        3 => at_most(rng, LIMIT),
        4 => at_most(rng, exact),
        5 => rng.up_to(9),
        _ => exact,
    };
    some.min(LIMIT - after)
}

fn append(rng: &mut Rng, image: &Image, term: u32) -> Sample {
    let length = image.length();
    let prev = if rng.one_in(2) { near(rng, length) } else { at_most(rng, length) };
    let prevterm = prevterm(rng, image, prev, term);
    let count = count(rng, prev, length);
    let rows = entries(rng, image, [prev, prevterm, count, term]);
    let chosen = at_most(rng, prev + count);
    Sample { fields: [0, 0, 0, 0, prev, prevterm, chosen, count], rows }
}

/// The term of the hub's entry at prev more often than not.
fn prevterm(rng: &mut Rng, image: &Image, prev: u32, term: u32) -> u32 {
    let held = image.log.get((prev as usize).wrapping_sub(1)).map(|row| row.0);
    match held {
        _ if prev == 0 => 0,
        Some(held) if held <= term && !rng.one_in(6) => held,
        _ => 1 + at_most(rng, term - 1),
    }
}

/// Entries after prev: the hub's own, as far as they go, or others.
fn entries(rng: &mut Rng, image: &Image, [prev, prevterm, count, term]: [u32; 4]) -> Vec<u8> {
    let held = image.log.get(prev as usize..(prev + count) as usize);
    match held {
        Some(held) if rng.one_in(2) && held.iter().all(|row| prevterm <= row.0 && row.0 <= term) => {
            bytes_of_rows(held)
        }
        _ => bytes_of_rows(&rising(rng, count, prevterm.max(1), term)),
    }
}

/// An end that a leader would take more often than not: above what the sender has confirmed, up to its length.
fn end(rng: &mut Rng, image: &Image, from: u32) -> u32 {
    let confirmed = image.confirmed[from as usize - 1];
    match rng.below(6) {
        0 => near(rng, image.length()),
        1 => (image.length() + 1 + rng.up_to(9)).min(LIMIT),
        2 => at_most(rng, LIMIT),
        3 => at_most(rng, confirmed),
        _ => (confirmed + 1 + at_most(rng, image.length().saturating_sub(confirmed + 1))).min(LIMIT),
    }
}
