//! Watches a home from outside: after each step of a hub it reads the hub's bytes and the text that it wrote, and lets MultiPaxos take the
//! steps that these stand for. A hub's term is its promise; a hub with ballot b and length n counts as having voted at b for places 1..n;
//! who starts or says yes reports; who leads proposes what its log has. What the machine cannot do, what a message claims without
//! ground, and what a home must never report is named by a `Reason`. Where a refused text is wrong, it asks the independent program.

pub mod message;
pub mod paxos;

use crate::binding::call::{PROPOSE, RESTART, START};
use image::{Command, Image, LEADER, Row};
use independent::{Hub, Outcome, Place, Term, place};
use message::{Kind, Message};
use paxos::{Machine, Refusal};
use std::collections::BTreeSet;

/// The outcomes that no hub of an honest home gives to a text that a hub of it wrote to it.
const NEVER_GIVEN: [Outcome; 6] = [
    Outcome::NotKnown,
    Outcome::BadState,
    Outcome::ShortOutput,
    Outcome::BadMessage,
    Outcome::NotAddressed,
    Outcome::Contradicting,
];

/// What is wrong with a step.
#[derive(Clone, Copy, Debug, PartialEq, Eq)]
pub enum Reason {
    /// An outcome that honest hubs never give each other.
    Refused(Outcome),
    /// Bytes that are no state's, or a text that is no message's.
    NoImage,
    /// A refusal that changes the state which it was lent, or writes although it is not Stale.
    RefusalActs,
    /// A restart that is refused, or leaves anything but what was kept.
    NotWhatWasKept,
    /// A text that reads as no message and is not refused for that.
    DamageTaken,
    /// Another place than that of a refused text's first wrong byte, or one where no text is refused.
    WrongPlace,
    /// A step that MultiPaxos cannot take.
    Machine(Refusal),
    /// The log no longer shows a vote that the hub has cast.
    VoteForgotten,
    /// A message that is not its writer's, or not of its term.
    NotItsOwn,
    /// A vote-yes that is not the hub's report: a vote above its ballot, or other entries than the votes after last.
    UntrueReport,
    /// An append with an entry that is not proposed at its term.
    AppendNotProposed,
    /// An append that counts a place as chosen where its term's proposal is not.
    AppendNotChosen,
    /// An append-yes for a place at which the hub has not voted at its term.
    AcknowledgedWithoutVote,
    /// A hub reports what is not chosen.
    ReportedNotChosen,
    /// A hub reports what no client asked for.
    ReportedNotAsked,
    /// A hub no longer reports what it has reported.
    ReportTakenBack,
    /// Two hubs have reported different commands at one place.
    ReportsDiffer,
}

impl From<Refusal> for Reason {
    fn from(refusal: Refusal) -> Reason {
        Reason::Machine(refusal)
    }
}

fn ensure(holds: bool, reason: Reason) -> Result<(), Reason> {
    if holds { Ok(()) } else { Err(reason) }
}

/// What a hub was called for, and what came of it.
#[derive(Clone, Copy)]
pub struct Deed<'a> {
    pub hub: Hub,
    pub event: u32,
    pub input: &'a [u8],
    /// Whether the input is a text that was damaged until it reads as no message.
    pub damaged: bool,
    pub outcome: Outcome,
    /// Where the input is wrong, by the step.
    pub place: u32,
    /// The bytes that the step was lent as the hub's state, and what it made of them.
    pub lent: &'a [u8],
    pub left: &'a [u8],
    /// What is stored of the hub after the step.
    pub stored: &'a [u8],
    /// What it wrote; nothing if empty.
    pub text: &'a [u8],
}

/// What clients asked for and hubs have reported so far.
#[derive(Default)]
struct Reports {
    asked: BTreeSet<Command>,
    /// By each hub, at its number less one.
    by_hub: [Vec<Command>; 7],
    /// By any hub.
    by_any: Vec<Command>,
}

impl Reports {
    fn see(&mut self, hub: Hub, now: Vec<Command>) -> Result<(), Reason> {
        let before = &mut self.by_hub[hub.0 as usize - 1];
        ensure(now.starts_with(before), Reason::ReportTakenBack)?;
        let common = now.len().min(self.by_any.len());
        ensure(now[..common] == self.by_any[..common], Reason::ReportsDiffer)?;
        ensure(now[common..].iter().all(|command| self.asked.contains(command)), Reason::ReportedNotAsked)?;
        self.by_any.extend(&now[common..]);
        *before = now;
        Ok(())
    }
}

/// A home as it is seen from outside.
pub struct Checker {
    /// Whether each step is looked at for what it makes of what it is lent.
    steps: bool,
    /// None if only what hubs report is looked at.
    machine: Option<Machine>,
    reports: Reports,
}

impl Checker {
    /// Watches a fresh group of n hubs.
    pub fn new(n: u32) -> Checker {
        Checker { steps: true, ..Checker::of_machine(n) }
    }

    /// Watches a fresh group of n hubs for what MultiPaxos cannot do, whatever a single step makes of its bytes.
    pub fn of_machine(n: u32) -> Checker {
        Checker { machine: Some(Machine::new(n)), ..Checker::of_reports() }
    }

    /// Watches nothing but what hubs report: whether they differ, take it back, or were not asked for it.
    pub fn of_reports() -> Checker {
        Checker { steps: false, machine: None, reports: Reports::default() }
    }

    /// How many places some hub has reported.
    pub fn reported(&self) -> usize {
        self.reports.by_any.len()
    }

    /// Looks at what a hub would answer now to a text that was ever written to it.
    pub fn hear(&self, outcome: Outcome) -> Result<(), Reason> {
        ensure(self.machine.is_none() || !NEVER_GIVEN.contains(&outcome), Reason::Refused(outcome))
    }

    /// Looks at one step of one hub.
    pub fn see(&mut self, deed: &Deed) -> Result<(), Reason> {
        if self.steps {
            check_step(deed)?;
        }
        let state = Image::read(deed.stored).ok_or(Reason::NoImage)?;
        let asked = if deed.event == PROPOSE { deed.input.try_into().ok() } else { None };
        self.reports.asked.extend(asked);
        if let Some(machine) = &mut self.machine {
            ensure(deed.damaged || !NEVER_GIVEN.contains(&deed.outcome), Reason::Refused(deed.outcome))?;
            let message = read_text(deed.text)?;
            asked.into_iter().for_each(|command| machine.ask(command));
            follow(machine, deed, &state, message.as_ref())?;
            check_reported(machine, &state)?;
        }
        self.reports.see(deed.hub, state.reported().collect())
    }
}

fn read_text(text: &[u8]) -> Result<Option<Message>, Reason> {
    match text {
        [] => Ok(None),
        _ => Message::read(text).map(Some).ok_or(Reason::NoImage),
    }
}

// ---- a step alone

fn check_step(deed: &Deed) -> Result<(), Reason> {
    let (done, stale) = (deed.outcome == Outcome::Done, deed.outcome == Outcome::Stale);
    ensure(done || deed.left == deed.lent, Reason::RefusalActs)?;
    ensure(done || stale || deed.text.is_empty(), Reason::RefusalActs)?;
    ensure(!deed.damaged || deed.outcome == Outcome::BadMessage, Reason::DamageTaken)?;
    ensure(deed.place as usize == place::told(deed.outcome, deed.input), Reason::WrongPlace)?;
    if deed.event == RESTART {
        let kept = Image::kept(deed.lent).map(|image| image.bytes());
        ensure(done && kept.is_some_and(|kept| kept == deed.left), Reason::NotWhatWasKept)?;
    }
    Ok(())
}

// ---- the machine's steps

/// Takes the machine's steps that the hub's step stands for, in the order in which one allows the next.
fn follow(
    machine: &mut Machine,
    deed: &Deed,
    state: &Image,
    message: Option<&Message>,
) -> Result<(), Reason> {
    let term = Term(state.term);
    if term != machine.promise(deed.hub) {
        machine.raise(deed.hub, term)?;
    }
    let says_yes = message.is_some_and(|message| message.kind == Kind::VoteYes);
    if says_yes || deed.event == START && deed.outcome == Outcome::Done {
        machine.report(deed.hub, term)?;
    }
    cast_votes(machine, deed.hub, state)?;
    message.map_or(Ok(()), |message| check_claims(machine, deed.hub, state, message))
}

/// The places of a log with their commands.
fn places(log: &[Row]) -> impl Iterator<Item = (Place, Command)> + '_ {
    (1..).map(Place).zip(log.iter().map(|row| row.1))
}

fn cast_votes(machine: &mut Machine, hub: Hub, state: &Image) -> Result<(), Reason> {
    let (length, ballot) = (Place(state.length()), Term(state.ballot));
    let shown = |place: Place, voted: Term| place <= length && voted <= ballot;
    let forgets = machine.highest(hub).iter().any(|(&place, vote)| !shown(place, vote.0));
    ensure(!forgets, Reason::VoteForgotten)?;
    let leads = state.role == LEADER && state.ballot == state.term;
    for (place, command) in places(&state.log) {
        if machine.highest(hub).get(&place) == Some(&(ballot, command)) {
            continue;
        }
        if leads {
            machine.propose(ballot, place, command)?;
        }
        machine.vote(hub, ballot, place, command)?;
    }
    Ok(())
}

// ---- what messages claim

fn check_claims(machine: &Machine, hub: Hub, state: &Image, message: &Message) -> Result<(), Reason> {
    ensure(message.from() == hub && message.term() == Term(state.term), Reason::NotItsOwn)?;
    match message.kind {
        Kind::VoteYes => check_yes(machine, hub, message),
        Kind::Append => check_append(machine, message),
        Kind::AppendYes => check_end(machine, hub, message),
        // Nobody relies on what these say.
        Kind::VoteRequest | Kind::VoteNo | Kind::AppendNo => Ok(()),
    }
}

/// A vote-yes tells of the hub's votes after last, all of one ballot, and by that ballot that none is above it.
fn check_yes(machine: &Machine, hub: Hub, message: &Message) -> Result<(), Reason> {
    let (last, ballot) = (Place(message.number("last")), Term(message.number("ballot")));
    let votes = machine.highest(hub);
    let none_above = votes.values().all(|vote| vote.0 <= ballot);
    let after_last = votes.iter().filter(|vote| *vote.0 > last).map(|(&place, &vote)| (place, vote));
    let told = (last.0 + 1..).map(Place).zip(message.entries.iter().map(|entry| (ballot, entry.1)));
    ensure(none_above && after_last.eq(told), Reason::UntrueReport)
}

fn check_append(machine: &Machine, message: &Message) -> Result<(), Reason> {
    let (term, prev) = (message.term(), message.number("prev"));
    let proposed =
        |(index, entry): (u32, &Row)| machine.proposal(term, Place(prev + 1 + index)) == Some(entry.1);
    ensure((0..).zip(&message.entries).all(proposed), Reason::AppendNotProposed)?;
    let settled = |place: Place| {
        let chosen = machine.chosen(place);
        chosen.is_some() && chosen == machine.proposal(term, place)
    };
    ensure((1..=message.number("chosen")).map(Place).all(settled), Reason::AppendNotChosen)
}

fn check_end(machine: &Machine, hub: Hub, message: &Message) -> Result<(), Reason> {
    let voted = |place: u32| machine.has_voted(hub, message.term(), Place(place));
    ensure((1..=message.number("end")).all(voted), Reason::AcknowledgedWithoutVote)
}

// ---- what hubs report

fn check_reported(machine: &Machine, state: &Image) -> Result<(), Reason> {
    let mut reported = (1..).map(Place).zip(state.reported());
    ensure(reported.all(|(place, command)| machine.chosen(place) == Some(command)), Reason::ReportedNotChosen)
}
