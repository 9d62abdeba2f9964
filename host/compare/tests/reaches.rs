//! A majority gets there (W-213): in whatever legal states its hubs are, if they meet the premises, one of them has a command chosen after
//! exactly 2 + 5(m - 1) steps, m hubs being a majority, phase by phase or with the steps for different hubs mixed in any way. If just one
//! premise is missed it does not get there, and each test says which steps are refused then, and with what. Both programs take every step, and
//! are compared.
//!
//! A long run, from the folder host: `KRITNAMON_HOMES=100000 cargo test --release --offline -p compare --test reaches meets -- --nocapture`,
//! and `KRITNAMON_SEED` for another one; the seed is printed.

use compare::binding::both::{Call, Tally};
use compare::binding::call::{PROPOSE, RECEIVE, SEND, START};
use compare::binding::watched::Watched;
use compare::binding::{chosen, reported};
use compare::generator::majority::{Majority, Premise};
use compare::generator::messages::ROOM;
use compare::generator::rng::{Rng, seed};
use compare::generator::states;
use image::{CANDIDATE, Command, FOLLOWER, Image, LEADER, Row, number_at};
use independent::command::FELT_LEAST;
use independent::{LIMIT, Outcome};
use std::cmp::Ordering;

/// How many homes are run where nothing else is asked for.
const HOMES: u64 = 5_000;

/// How many homes are run that meet the premises: `KRITNAMON_HOMES` in the environment.
fn homes() -> u64 {
    std::env::var("KRITNAMON_HOMES").ok().and_then(|text| text.parse().ok()).unwrap_or(HOMES)
}

/// How many homes are run that miss one of them.
const MISSING: u64 = 300;

// ---- the run

/// The asker's index among the hubs of a majority.
const ASKER: usize = 0;

/// A step that was taken: with which of the others, by its index among the hubs (at a start and a proposal the asker itself); its outcome; and
/// the asker's chosen after it.
#[derive(Debug)]
struct Step {
    other: usize,
    outcome: Outcome,
    chosen: u32,
}

/// A turn for one of the others: its event, and at which hub it is, by the index of the other.
type Turn = (u32, fn(usize) -> usize);

/// It receives the request, and the asker its answer.
const ELECTING: [Turn; 2] = [(RECEIVE, |other| other), (RECEIVE, |_| ASKER)];

/// The asker sends to it, it receives, and the asker receives its answer.
const CHOOSING: [Turn; 3] = [(SEND, |_| ASKER), (RECEIVE, |other| other), (RECEIVE, |_| ASKER)];

/// The steps of each phase, in the order in which they were taken: the start, requests received, answers received, the proposal, sends, appends
/// received, ends received.
type Phases = [Vec<Step>; 7];

/// The hubs of a majority at work.
struct Run<'a> {
    tally: &'a mut Tally,
    home: &'a Majority,
    states: Vec<Vec<u8>>,
    /// For each of the others, the text that is under way between it and the asker; empty if there is none.
    letters: Vec<Vec<u8>>,
}

impl Run<'_> {
    fn new<'a>(tally: &'a mut Tally, home: &'a Majority) -> Run<'a> {
        let states: Vec<Vec<u8>> = home.hubs.iter().map(|hub| hub.1.bytes()).collect();
        let letters = vec![Vec::new(); states.len()];
        Run { tally, home, states, letters }
    }

    /// Takes a step of a hub. Gives it, and the message written.
    fn step(&mut self, hub: usize, event: u32, other: usize, input: &[u8]) -> (Step, Vec<u8>) {
        let [own, peer] = [hub, other].map(|hub| self.home.hubs[hub].0.own().0);
        let (n, state) = (self.home.hubs[hub].0.size() as u32, &self.states[hub]);
        let after = self.tally.compare(&Call { n, own, event, a: peer, b: 0, state, input, room: ROOM });
        assert!(after.outcome == Outcome::Done || after.state == *state, "a refusal leaves the state");
        self.states[hub] = after.state;
        (Step { other, outcome: after.outcome, chosen: self.chosen() }, after.message)
    }

    /// How many commands the asker reports.
    fn chosen(&self) -> u32 {
        let answer = chosen(&self.states[ASKER]);
        assert_eq!(answer.outcome, Outcome::Done);
        answer.second
    }

    /// A phase over the others, in an order of its own. For each it is a step at that hub or at the asker, with the text under way between the
    /// two; what is written takes that text's place. What was not written is not received.
    fn phase(&mut self, rng: &mut Rng, turn: Turn) -> Vec<Step> {
        let mut others: Vec<usize> = (1..self.states.len()).collect();
        rng.shuffle(&mut others);
        others.retain(|&other| turn.0 != RECEIVE || !self.letters[other].is_empty());
        others.into_iter().map(|other| self.turn(other, turn)).collect()
    }

    /// These turns for each of the others, one after the other for each, but with those of different hubs mixed in any way.
    fn mixed(&mut self, rng: &mut Rng, turns: &[Turn]) -> Vec<Step> {
        let mut others: Vec<usize> =
            (1..self.states.len()).cycle().take((self.states.len() - 1) * turns.len()).collect();
        rng.shuffle(&mut others);
        let mut taken = vec![0; self.states.len()];
        let mut take = |other: usize| {
            taken[other] += 1;
            self.turn(other, turns[taken[other] - 1])
        };
        others.into_iter().map(&mut take).collect()
    }

    /// A turn for one of the others.
    fn turn(&mut self, other: usize, (event, at): Turn) -> Step {
        let letter = std::mem::take(&mut self.letters[other]);
        let (step, message) = self.step(at(other), event, other, &letter);
        self.letters[other] = message;
        step
    }

    /// All phases; the start alone if that is refused.
    fn phases(&mut self, rng: &mut Rng, command: &Command) -> Phases {
        let (start, request) = self.step(ASKER, START, ASKER, b"");
        if start.outcome != Outcome::Done {
            assert!(request.is_empty());
            return [vec![start], vec![], vec![], vec![], vec![], vec![], vec![]];
        }
        self.letters.fill(request);
        let [asked, answered] = ELECTING.map(|turn| self.phase(rng, turn));
        let proposed = self.step(ASKER, PROPOSE, ASKER, command).0;
        let [sent, stored, confirmed] = CHOOSING.map(|turn| self.phase(rng, turn));
        [vec![start], asked, answered, vec![proposed], sent, stored, confirmed]
    }

    /// The same steps, but not phase by phase.
    fn mixed_steps(&mut self, rng: &mut Rng, command: &Command) -> Vec<Step> {
        let (start, request) = self.step(ASKER, START, ASKER, b"");
        self.letters.fill(request);
        let mut steps = vec![start];
        steps.extend(self.mixed(rng, &ELECTING));
        steps.push(self.step(ASKER, PROPOSE, ASKER, command).0);
        steps.extend(self.mixed(rng, &CHOOSING));
        steps
    }

    /// A hub's state.
    fn image(&self, hub: usize) -> Image {
        Image::read(&self.states[hub]).expect("a hub's state")
    }

    /// What the asker reports at a place, and the bytes lent for it, four more than a command has.
    fn reported(&self, place: u32) -> (Outcome, Vec<u8>) {
        let mut out = Watched::new(&UNTOUCHED);
        let outcome = reported(&self.states[ASKER], place, out.lend());
        (outcome, out.bytes().to_vec())
    }
}

/// What stands in bytes lent for a command before they are written.
const UNTOUCHED: [u8; 20] = [7; 20];

/// Whether there are so many steps, and all of them have this outcome.
fn are(steps: &[Step], count: usize, outcome: Outcome) -> bool {
    steps.len() == count && steps.iter().all(|step| step.outcome == outcome)
}

/// The whole majority holds one log, at the ballot of the term that the asker asked for. Gives the log.
fn assert_held_by_all(run: &Run) -> Vec<Row> {
    let log = run.image(ASKER).log;
    for image in (0..run.states.len()).map(|hub| run.image(hub)) {
        assert!(image.ballot == run.home.asker().term + 1 && image.log == log, "{}", run.home);
    }
    log
}

// ---- homes that meet the premises

/// How many steps a home of this size takes.
fn steps_of(size: usize) -> usize {
    match size {
        3 => 7,
        5 => 12,
        _ => 17,
    }
}

/// Every step is done, and only the last makes the asker report the command, at the place behind the longest log, which is its own last.
fn assert_reaches(rng: &mut Rng, tally: &mut Tally, home: &Majority, command: &Command) {
    let place = home.longest() + 1;
    let mut run = Run::new(tally, home);
    let steps = if rng.one_in(2) {
        run.phases(rng, command).into_iter().flatten().collect()
    } else {
        run.mixed_steps(rng, command)
    };
    assert!(are(&steps, steps_of(home.hubs[ASKER].0.size()), Outcome::Done), "{home}: {steps:?}");
    let (last, before) = steps.split_last().expect("a step");
    assert!(before.iter().all(|step| step.chosen < place), "{home}: {steps:?}");
    assert_eq!(last.chosen, place, "{home}");
    assert_eq!(run.reported(place), (Outcome::Done, [&command[..], &UNTOUCHED[16..]].concat()), "{home}");
    let log = assert_held_by_all(&run);
    assert_eq!(log.last(), Some(&(home.asker().term + 1, *command)), "{home}");
    assert_eq!(log.len(), place as usize, "{home}");
}

/// Whether this holds of the asker and one of the others.
fn some(home: &Majority, holds: fn(&Image, &Image) -> bool) -> bool {
    home.others().any(|hub| holds(home.asker(), hub))
}

/// A kind of home: in words, and whether a home is of it.
type Kind = (&'static str, fn(&Majority) -> bool);

/// The kinds that have to come up often.
const KINDS: [Kind; 27] = [
    ("three hubs", |home| home.hubs.len() == 2),
    ("five hubs", |home| home.hubs.len() == 3),
    ("seven hubs", |home| home.hubs.len() == 4),
    ("the asker follows", |home| home.asker().role == FOLLOWER),
    ("the asker stands", |home| home.asker().role == CANDIDATE),
    ("the asker has gathered entries", |home| !home.asker().gathered.is_empty()),
    ("the asker is fresh", |home| *home.asker() == Image::default()),
    ("the asker's next term is the last", |home| home.asker().term == u32::MAX - 1),
    ("the asker's log is empty", |home| home.asker().log.is_empty()),
    ("the asker has a ballot and no entry", |home| home.asker().ballot > 0 && home.asker().log.is_empty()),
    ("all logs are empty", |home| home.longest() == 0),
    ("the asker's log has one place left", |home| home.asker().length() == LIMIT - 1),
    ("only another's log has one place left", |home| {
        home.longest() == LIMIT - 1 && home.asker().length() < LIMIT - 1
    }),
    ("another follows", |home| some(home, |_, hub| hub.role == FOLLOWER)),
    ("another stands", |home| some(home, |_, hub| hub.role == CANDIDATE)),
    ("another has gathered entries", |home| some(home, |_, hub| !hub.gathered.is_empty())),
    ("another leads", |home| some(home, |_, hub| hub.role == LEADER)),
    ("another leads the asker's term", |home| {
        some(home, |asker, hub| hub.role == LEADER && hub.term == asker.term)
    }),
    ("another has the asker's term", |home| some(home, |asker, hub| hub.term == asker.term)),
    ("another has the asker's ballot and an entry", |home| {
        some(home, |asker, hub| hub.ballot == asker.ballot && !hub.log.is_empty())
    }),
    ("another has a higher ballot and no entry", |home| {
        some(home, |asker, hub| hub.ballot > asker.ballot && hub.log.is_empty())
    }),
    ("another leads with a higher ballot and no entry", |home| {
        some(home, |asker, hub| hub.role == LEADER && hub.ballot > asker.ballot && hub.log.is_empty())
    }),
    ("another has a longer log", |home| some(home, |asker, hub| hub.length() > asker.length())),
    ("another has a shorter log", |home| some(home, |asker, hub| hub.length() < asker.length())),
    ("another has the same first entry", |home| {
        some(home, |asker, hub| !hub.log.is_empty() && hub.log.first() == asker.log.first())
    }),
    ("another reports more", |home| some(home, |asker, hub| hub.chosen > asker.length())),
    ("others' ballots meet behind the asker's log", |home| {
        let longer = || home.others().filter(|hub| hub.length() > home.asker().length());
        longer().any(|hub| longer().any(|other| other.ballot != hub.ballot))
    }),
];

/// Each kind has to come up often, or the run says little. A shorter one than usual is to look at a few homes.
fn assert_of_all_kinds(homes: u64, counts: [u64; KINDS.len()]) {
    for ((name, _), count) in KINDS.into_iter().zip(counts) {
        println!("{count} of {homes} homes: {name}");
        assert!(homes < HOMES || count >= homes / 100, "rarely: {name}");
    }
}

#[test]
fn a_majority_that_meets_the_premises_gets_there() {
    let mut rng = Rng::seeded(seed());
    let mut tally = Tally::default();
    let mut counts = [0; KINDS.len()];
    let [mut stops, mut shortest] = [0; 2];
    for _ in 0..homes() {
        let (home, command) = (Majority::meeting_all(&mut rng), states::proposal(&mut rng));
        for (count, (_, is_of)) in counts.iter_mut().zip(KINDS) {
            *count += u64::from(is_of(&home));
        }
        let duration = number_at(&command, 4);
        stops += u64::from(duration == 0);
        shortest += u64::from(duration == FELT_LEAST as u32);
        assert_reaches(&mut rng, &mut tally, &home, &command);
    }
    println!("{tally:?}, {stops} stops, {shortest} commands just long enough");
    assert_of_all_kinds(homes(), counts);
    assert!(homes() < HOMES || stops.min(shortest) >= homes() / 100);
}

// ---- homes that miss one

/// Runs homes that miss one premise, and has each looked at. However it comes, the place behind the longest log is not reported; where that log is
/// full there is no such place.
fn run_missing(missed: Premise, look: impl FnMut(&Run, &Phases)) {
    run_each(|rng| (Majority::missing(rng, missed), states::proposal(rng)), look);
}

fn run_each(make: impl Fn(&mut Rng) -> (Majority, Command), mut look: impl FnMut(&Run, &Phases)) {
    let mut rng = Rng::seeded(seed());
    let mut tally = Tally::default();
    let mut sizes = [0; 8];
    for _ in 0..MISSING {
        let (home, command) = make(&mut rng);
        sizes[home.hubs[ASKER].0.size()] += 1;
        let mut run = Run::new(&mut tally, &home);
        let phases = run.phases(&mut rng, &command);
        assert_eq!(run.reported(home.longest() + 1), (Outcome::OutOfRange, UNTOUCHED.to_vec()), "{home}");
        look(&run, &phases);
    }
    println!("{MISSING} homes, {tally:?}");
    assert!([3, 5, 7].iter().all(|&size| sizes[size] >= MISSING / 10), "{sizes:?}");
}

/// The start is refused, so nobody receives anything.
fn assert_not_started(phases: &Phases, outcome: Outcome) {
    let [start, rest @ ..] = phases;
    assert!(are(start, 1, outcome) && rest.iter().all(Vec::is_empty), "{phases:?}");
}

/// The asker starts and never leads: it can neither propose nor send, and its log and chosen stay.
fn assert_never_leads(run: &Run, phases: &Phases) {
    let [start, _, _, proposed, sent, stored, confirmed] = phases;
    let others = run.home.others().count();
    assert!(are(start, 1, Outcome::Done) && are(proposed, 1, Outcome::WrongRole), "{}: {phases:?}", run.home);
    assert!(are(sent, others, Outcome::WrongRole), "{}: {phases:?}", run.home);
    assert!(stored.is_empty() && confirmed.is_empty(), "{}: {phases:?}", run.home);
    let (before, after) = (run.home.asker(), run.image(ASKER));
    assert!(after.log == before.log && after.chosen == before.chosen, "{}", run.home);
}

/// All is done but the proposal, so what the longest log had is chosen. Of empty logs there is nothing to confirm.
fn assert_not_proposed(run: &Run, phases: &Phases, outcome: Outcome) {
    let [start, asked, answered, proposed, sent, stored, confirmed] = phases;
    let (others, longest) = (run.home.others().count(), run.home.longest());
    assert!(are(start, 1, Outcome::Done) && are(proposed, 1, outcome), "{}: {phases:?}", run.home);
    let done = [asked, answered, sent, stored].into_iter().all(|steps| are(steps, others, Outcome::Done));
    assert!(done, "{}: {phases:?}", run.home);
    let confirming = if longest == 0 { Outcome::NothingNew } else { Outcome::Done };
    assert!(are(confirmed, others, confirming), "{}: {phases:?}", run.home);
    assert_eq!((run.chosen(), assert_held_by_all(run).len()), (longest, longest as usize), "{}", run.home);
}

#[test]
fn a_leader_does_not_start() {
    run_missing(Premise::NotLeading, |_, phases| assert_not_started(phases, Outcome::WrongRole));
}

#[test]
fn at_the_last_term_it_does_not_start() {
    run_missing(Premise::TermLeft, |_, phases| assert_not_started(phases, Outcome::NoTermLeft));
}

/// A hub of a higher term finds the request stale, and says no. At the term that the asker has asked for, that tells the asker nothing;
/// at a higher one it follows, and finds stale what is below.
#[test]
fn a_higher_term_is_in_the_way() {
    let mut by_one = 0;
    run_missing(Premise::Term, |run, phases| {
        let asking = run.home.asker().term + 1;
        let term_of = |step: &Step| run.home.hubs[step.other].1.term;
        let [_, asked, answered, ..] = phases;
        assert_eq!([asked.len(), answered.len()], [run.home.others().count(); 2], "{}", run.home);
        for step in asked {
            let expected = if term_of(step) >= asking { Outcome::Stale } else { Outcome::Done };
            assert_eq!(step.outcome, expected, "{}", run.home);
        }
        let mut own = asking;
        for step in answered {
            let told = term_of(step).max(asking);
            let expected = match told.cmp(&own) {
                Ordering::Less => Outcome::Stale,
                Ordering::Equal if term_of(step) >= asking => Outcome::NothingNew,
                Ordering::Equal | Ordering::Greater => Outcome::Done,
            };
            assert_eq!(step.outcome, expected, "{}: {phases:?}", run.home);
            own = own.max(told);
        }
        assert_never_leads(run, phases);
        let role = if own == asking { CANDIDATE } else { FOLLOWER };
        let after = run.image(ASKER);
        assert_eq!((after.role, after.term), (role, own), "{}", run.home);
        by_one += u64::from(own == asking);
    });
    println!("in {by_one} homes the highest term is higher by one");
    assert!(by_one >= MISSING / 10 && MISSING - by_one >= MISSING / 10);
}

/// Everybody hears the request. Whoever holds an entry at a higher ballot says no, which tells the asker nothing.
#[test]
fn a_higher_ballot_is_in_the_way() {
    run_missing(Premise::Ballot, |run, phases| {
        let [_, asked, answered, ..] = phases;
        let others = run.home.others().count();
        assert!(are(asked, others, Outcome::Done) && answered.len() == others, "{}: {phases:?}", run.home);
        for step in answered {
            let hub = &run.home.hubs[step.other].1;
            let refuses = !hub.log.is_empty() && hub.ballot > run.home.asker().ballot;
            let expected = if refuses { Outcome::NothingNew } else { Outcome::Done };
            assert_eq!(step.outcome, expected, "{}: {phases:?}", run.home);
        }
        assert_never_leads(run, phases);
        assert_eq!(run.image(ASKER).role, CANDIDATE, "{}", run.home);
    });
}

/// One log is full, be it the asker's or not: then the leader's is.
#[test]
fn a_full_log_is_in_the_way() {
    let mut with_room = 0;
    run_missing(Premise::Room, |run, phases| {
        assert_not_proposed(run, phases, Outcome::LogFull);
        with_room += u64::from(run.home.asker().length() < LIMIT);
    });
    println!("{with_room} askers have room in their own logs");
    assert!(with_room >= MISSING / 10 && MISSING - with_room >= MISSING / 10);
}

/// All others say yes, of three hubs none, and it is one vote less than a majority.
#[test]
fn one_hub_less_does_not_get_there() {
    let make = |rng: &mut Rng| {
        let mut home = Majority::meeting_all(rng);
        home.hubs.pop();
        (home, states::proposal(rng))
    };
    run_each(make, |run, phases| {
        let [_, asked, answered, ..] = phases;
        let done = |steps| are(steps, run.home.others().count(), Outcome::Done);
        assert!(done(asked) && done(answered), "{}: {phases:?}", run.home);
        assert_never_leads(run, phases);
        assert_eq!(run.image(ASKER).role, CANDIDATE, "{}", run.home);
    });
}

#[test]
fn a_command_too_short_to_feel_is_not_proposed() {
    let make = |rng: &mut Rng| (Majority::meeting_all(rng), states::short(rng));
    run_each(make, |run, phases| assert_not_proposed(run, phases, Outcome::BadCommand));
}
