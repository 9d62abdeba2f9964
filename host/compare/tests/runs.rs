//! A home from outside: random runs of three, five and seven hubs, with MultiPaxos kept beside them.
//!
//! A long run, from the folder host: `KRITNAMON_STEPS=10000000 cargo test --release --offline -p compare --test runs proved -- --nocapture`,
//! and `KRITNAMON_SEED` for another one. Each home has a seed of its own, which is printed if it fails: with it as
//! `KRITNAMON_SEED` and `KRITNAMON_STEPS=1` that home alone is run.

use compare::binding::Answer;
use compare::binding::call::{Call, PROPOSE, RECEIVE, Step, exported, independent};
use compare::broken::compares_when_empty;
use compare::checker::Checker;
use compare::generator::home::{Home, TURNS, Tally, size};
use compare::generator::messages::fields_of;
use compare::generator::rng::seed;
use image::{Image, LENGTH_AT, ROW_SIZE, number_at, put_number, row_at};
use independent::command::{self, FELT_LEAST};
use independent::{Outcome, message};
use std::sync::atomic::{AtomicU64, Ordering};

/// How many steps are taken where nothing else is asked for.
const STEPS: u64 = 300_000;

/// How many steps are taken at least: `KRITNAMON_STEPS` in the environment.
fn steps() -> u64 {
    std::env::var("KRITNAMON_STEPS").ok().and_then(|text| text.parse().ok()).unwrap_or(STEPS)
}

/// Runs one home after the other until there are enough steps.
fn run(step: Step) -> Tally {
    let first = seed();
    println!("seed {first}, {} steps", steps());
    let mut all = Tally::default();
    let mut next = first;
    while all.steps < steps() {
        match Home::new(step, next, Checker::new).run(TURNS) {
            Ok(tally) => all.add(&tally),
            Err(failure) => panic!("seed {next}, {} hubs: {failure:#?}", size(next)),
        }
        next += 1;
    }
    println!("seeds {first} to {}: {all:?}", next - 1);
    all
}

/// The outcomes that hubs of an honest home do give.
const GIVEN: [Outcome; 7] = [
    Outcome::Done,
    Outcome::Stale,
    Outcome::WrongRole,
    Outcome::BadCommand,
    Outcome::LogFull,
    Outcome::OutOfRange,
    Outcome::NothingNew,
];

/// Much has to happen in a run, or it says little. A shorter one than usual is to look at one home.
fn assert_eventful(all: &Tally) {
    if all.steps < STEPS {
        return;
    }
    assert!(all.received.iter().all(|&count| count > 100), "each type of message is received with effect");
    assert!(all.led > 3_000 && all.leader_changed > 1_000, "leaders change");
    assert!(all.contested > 50, "what is gathered differs in ballots");
    assert!(all.unblocked > 50, "empty logs are asked with a lower ballot");
    assert!(all.reported > 10_000, "places are reported");
    assert!(all.full > 50, "logs become full");
    assert!(all.restarts > 5_000, "hubs restart, and find anything where the lost parts were");
    assert!(all.damaged > 3_000 && all.still_read > 10, "texts are damaged");
    assert_eq!(all.outcomes[Outcome::BadMessage], all.damaged, "no other text is refused as none");
    assert!(all.reheard > 100_000, "late texts are heard");
    for outcome in GIVEN {
        assert!(all.outcomes[outcome] > 500, "{outcome:?} is given");
    }
}

#[test]
fn homes_of_the_proved_library_are_multipaxos() {
    assert_eventful(&run(exported));
}

#[test]
fn homes_of_the_independent_program_are_multipaxos() {
    assert_eventful(&run(independent));
}

// ---- two versions

/// Whether these bytes are a legal command that is too short to be proposed.
fn is_short(bytes: &[u8]) -> bool {
    command::read(bytes).is_ok_and(|command| (1..FELT_LEAST).contains(&command.duration))
}

/// The places that a hub of version 1 has, and the bytes of the longest text that it reads.
const OLDER_PLACES: u32 = 256;
const OLDER_TEXT: usize = 16_384;

/// Whether these bytes are a message that a hub of version 1 cannot read.
fn is_beyond(text: &[u8]) -> bool {
    let [.., start, _, _, count] = match message::read(text).message {
        Ok(message) => fields_of(&message),
        Err(_) => return false,
    };
    text.len() > OLDER_TEXT || start + count > OLDER_PLACES
}

/// How often a hub of version 1 was told of places that it does not have.
static BEYOND: AtomicU64 = AtomicU64::new(0);

/// A hub of version 1.0.0. It has fewer places: what tells of others it refuses. (With 4; 13 says it here, which leaves as much, since hubs of
/// one version never give each other 4.) Its log is full sooner.
fn older(call: &mut Call) -> Answer {
    match call.event {
        RECEIVE if is_beyond(call.input) => {
            BEYOND.fetch_add(1, Ordering::Relaxed);
            Answer::new(Outcome::NothingNew, 0)
        }
        PROPOSE => proposes_older(call),
        _ => compares_when_empty(call),
    }
}

fn proposes_older(call: &mut Call) -> Answer {
    let before = call.state.to_vec();
    let answer = proposes_any(call);
    if answer.outcome == Outcome::Done && number_at(call.state, LENGTH_AT) > OLDER_PLACES {
        call.state.copy_from_slice(&before);
        return Answer::new(Outcome::LogFull, 0);
    }
    answer
}

/// A client may propose any legal command, and an empty log compares ballots too: the independent program, with a command that is too short made
/// longer on the way in, and short again where it was stored.
fn proposes_any(call: &mut Call) -> Answer {
    if !is_short(call.input) {
        return compares_when_empty(call);
    }
    let mut longer = call.input.to_vec();
    put_number(&mut longer, 4, FELT_LEAST as u32);
    let answer = independent(&mut call.with_input(&longer));
    if answer.outcome == Outcome::Done {
        let last = row_at(number_at(call.state, LENGTH_AT));
        call.state[last + 4..last + ROW_SIZE].copy_from_slice(call.input);
    }
    answer
}

/// How often a step of the proved library left a state that reports a command too short to be proposed.
static REPORTED_SHORT: AtomicU64 = AtomicU64::new(0);

/// Hubs 1 and 2 are of the older version, the others are the proved library.
fn of_two_versions(call: &mut Call) -> Answer {
    if call.own.0 <= 2 {
        return older(call);
    }
    let answer = exported(call);
    let reports =
        Image::kept(call.state).is_some_and(|state| state.reported().any(|command| is_short(&command)));
    REPORTED_SHORT.fetch_add(reports.into(), Ordering::Relaxed);
    answer
}

/// What hubs of version 1.0.0 were told to propose comes to the others, is kept, sent, led with and reported; what they have no places for they
/// refuse; and all is well.
#[test]
fn homes_of_two_versions_are_multipaxos() {
    let all = run(of_two_versions);
    assert_eventful(&all);
    let reported = REPORTED_SHORT.load(Ordering::Relaxed);
    println!("{reported} steps with a short command reported");
    assert!(all.steps < STEPS || reported > 10_000, "short commands are reported");
    let beyond = BEYOND.load(Ordering::Relaxed);
    println!("{beyond} messages beyond the places of an older hub");
    assert!(all.steps < STEPS || beyond > 1_000, "older hubs are told of places that they do not have");
}
