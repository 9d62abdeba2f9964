//! The step: the proved library and the independent program give the same answers and leave the same bytes, whatever is handed in.
//! `KRITNAMON_ROUNDS=50` makes a longer run of it, `KRITNAMON_SEED` another one; the seed is printed.

use compare::binding::both::{Call, Tally};
use compare::binding::call::{PROPOSE, RECEIVE, RESTART, SEND, START};
use compare::generator::damage::{self, EDGES};
use compare::generator::messages::{ROOM, random};
use compare::generator::reached::Home;
use compare::generator::rng::{Rng, rounds, seed};
use compare::generator::{aimed, states};
use image::{Image, LEADER};
use independent::{Group, LIMIT, Outcome};

/// The size of a group, and the own number.
fn numbers_of(group: Group) -> [u32; 2] {
    [group.size() as u32, group.own().0]
}

/// A message's text: aimed at the state, now and then with something wrong in it.
fn text(rng: &mut Rng, group: Group, image: &Image) -> Vec<u8> {
    let mut sample = aimed::message(rng, group, image);
    if rng.one_in(4) {
        damage::sample(rng, &mut sample);
    }
    let mut text = if rng.one_in(50) { random(rng).lines() } else { sample.lines() };
    if rng.one_in(12) {
        damage::text(rng, &mut text);
    }
    text
}

/// What is handed in beside the state: a command or a text, fit for the event more often than not.
fn input(rng: &mut Rng, event: u32, group: Group, image: &Image) -> Vec<u8> {
    if event != PROPOSE {
        return text(rng, group, image);
    }
    let mut bytes = states::command(rng).to_vec();
    match rng.below(8) {
        0 => bytes.resize(rng.pick(&[0, 1, 15, 17, 32]), 0),
        1 | 2 => damage::command(rng, &mut bytes),
        _ => {}
    }
    bytes
}

/// A hub's number and a prev: those of a send that is taken more often than not.
fn peer_and_prev(rng: &mut Rng, group: Group, image: &Image) -> [u32; 2] {
    let peer = if rng.one_in(12) { rng.pick(&EDGES) } else { 1 + rng.up_to(group.size() as u32) };
    let prev = match rng.below(8) {
        0 => image.length() + 1,
        1 => rng.pick(&EDGES),
        2 => LIMIT + 1,
        _ => states::at_most(rng, image.length()),
    };
    [peer, prev]
}

fn room(rng: &mut Rng) -> usize {
    if rng.one_in(25) { rng.pick(&[0, 1, ROOM - 1]) } else { rng.pick(&[ROOM, ROOM + 1, 2 * ROOM]) }
}

/// The group and event of a call, now and then such as there are none.
fn who_and_what(rng: &mut Rng, group: Group, event: u32) -> [u32; 3] {
    let [n, own] = numbers_of(group);
    match rng.below(80) {
        0 => [rng.up_to(9), own, event],
        1 => [n, rng.up_to(9), event],
        2 => [n, own, rng.up_to(9)],
        3 => [rng.pick(&EDGES), rng.pick(&EDGES), rng.pick(&EDGES)],
        _ => [n, own, event],
    }
}

/// An event, more often than not one that the role takes.
fn event_at(rng: &mut Rng, image: &Image) -> u32 {
    match rng.below(12) {
        0..6 => RECEIVE,
        6 => RESTART,
        7 => rng.pick(&[START, PROPOSE, SEND]),
        _ if image.role == LEADER => rng.pick(&[PROPOSE, PROPOSE, SEND]),
        _ => rng.pick(&[START, RECEIVE, RECEIVE]),
    }
}

/// One call at a state.
fn call_at(rng: &mut Rng, tally: &mut Tally, group: Group, image: &Image) {
    let event = event_at(rng, image);
    let input = input(rng, event, group, image);
    let [a, b] = peer_and_prev(rng, group, image);
    let mut state = image.bytes();
    // At a restart most changes are of parts that are not looked at.
    if rng.one_in(if event == RESTART { 2 } else { 12 }) {
        state = damage::state(rng, &state);
    }
    let [n, own, event] = who_and_what(rng, group, event);
    tally.compare(&Call { n, own, event, a, b, state: &state, input: &input, room: room(rng) });
}

/// Calls at random legal states, some at each.
fn calls_at_states_made(rng: &mut Rng, tally: &mut Tally, states: u64) {
    for _ in 0..states {
        let group = states::group(rng);
        let image = states::legal(rng, group);
        for _ in 0..4 {
            call_at(rng, tally, group, &image);
        }
    }
}

/// How long a home runs before another begins.
const TURNS: u64 = 1_500;

/// Calls at the states that hubs come to, and those by which they come to them.
fn calls_at_states_reached(rng: &mut Rng, tally: &mut Tally, homes: u64) {
    for turn in 0..homes {
        let mut home = Home::fresh([3, 5, 7][turn as usize % 3]);
        for _ in 0..TURNS {
            home.turn(rng, tally);
            let (group, image) = home.any(rng);
            call_at(rng, tally, group, &image);
        }
    }
}

/// The outcomes that a step gives: all but those of playing a command.
fn of_a_step() -> impl Iterator<Item = Outcome> {
    Outcome::ALL.into_iter().filter(|outcome| outcome.number() < Outcome::NotPlayable.number())
}

#[test]
fn calls_at_states_made_and_reached_are_answered_alike() {
    let mut rng = Rng::seeded(seed());
    let mut tally = Tally::default();
    calls_at_states_made(&mut rng, &mut tally, 70_000 * rounds());
    println!("{tally:?}");
    calls_at_states_reached(&mut rng, &mut tally, 24 * rounds());
    println!("{tally:?}");
    assert!(tally.calls >= 100_000);
    assert!(of_a_step().all(|outcome| tally.outcomes[outcome] >= 1_000), "an outcome was rarely met");
    assert!(tally.done_by_event[1..].iter().all(|&count| count >= 1_000), "an event was rarely done");
    assert!(tally.done_by_type[1..].iter().all(|&count| count >= 1_000), "a type was rarely taken");
    assert!(tally.unblocked >= 150, "an empty log was rarely asked with a lower ballot");
}
