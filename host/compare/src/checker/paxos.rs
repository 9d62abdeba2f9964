//! MultiPaxos as rule R36 has it: per hub a promised ballot; a set of votes; at most one proposed command per ballot and place;
//! reports at a promised ballot. The machine takes the steps that it is asked to take, and refuses with a name those that it cannot take.
//! It knows nothing of hubs, logs or messages: `checker` says which steps a hub's step stands for.

use image::Command;
use independent::{Hub, Place, Term};
use std::collections::{BTreeMap, BTreeSet};

/// A vote at some place: its ballot and command.
pub type Vote = (Term, Command);

/// A hub's highest vote per place.
pub type Report = BTreeMap<Place, Vote>;

/// Why a step is none of the machine's.
#[derive(Clone, Copy, Debug, PartialEq, Eq)]
pub enum Refusal {
    /// A promise is raised, never lowered.
    PromiseLowered,
    /// A hub reports at the ballot that it has promised.
    ReportNotPromised,
    /// A proposal needs reports of a majority at its ballot.
    NoMajorityReported,
    /// A proposal is the command of the highest vote that a majority reported at its place.
    NotTheHighestVote,
    /// Where a majority reported no vote, a proposal is what a client asked for.
    NotAskedFor,
    /// There is one proposal per ballot and place.
    SecondProposal,
    /// A vote is for a proposal.
    VoteWithoutProposal,
    /// A vote is not below the hub's promise.
    VoteBelowPromise,
}

struct Proposal {
    command: Command,
    voters: BTreeSet<Hub>,
}

/// The machine of a group, from nothing.
pub struct Machine {
    majority: usize,
    promises: BTreeMap<Hub, Term>,
    highest: BTreeMap<Hub, Report>,
    reports: BTreeMap<Term, Vec<(Hub, Report)>>,
    proposals: BTreeMap<(Term, Place), Proposal>,
    asked: BTreeSet<Command>,
    chosen: BTreeMap<Place, Command>,
}

impl Machine {
    pub fn new(n: u32) -> Machine {
        Machine {
            majority: n as usize / 2 + 1,
            promises: BTreeMap::new(),
            highest: (1..=n).map(|hub| (Hub(hub), Report::new())).collect(),
            reports: BTreeMap::new(),
            proposals: BTreeMap::new(),
            asked: BTreeSet::new(),
            chosen: BTreeMap::new(),
        }
    }

    // ---- what can be seen of it

    /// The ballot that a hub has promised; 0 before any promise.
    pub fn promise(&self, hub: Hub) -> Term {
        self.promises.get(&hub).copied().unwrap_or_default()
    }

    /// A hub's highest vote per place.
    pub fn highest(&self, hub: Hub) -> &Report {
        &self.highest[&hub]
    }

    /// What is proposed at a ballot for a place.
    pub fn proposal(&self, ballot: Term, place: Place) -> Option<Command> {
        self.proposals.get(&(ballot, place)).map(|proposal| proposal.command)
    }

    /// Whether a hub has voted at a ballot for what is proposed for a place.
    pub fn has_voted(&self, hub: Hub, ballot: Term, place: Place) -> bool {
        self.proposals.get(&(ballot, place)).is_some_and(|proposal| proposal.voters.contains(&hub))
    }

    /// What is chosen at a place.
    pub fn chosen(&self, place: Place) -> Option<Command> {
        self.chosen.get(&place).copied()
    }

    // ---- its steps

    /// A client asks for a command.
    pub fn ask(&mut self, command: Command) {
        self.asked.insert(command);
    }

    /// A hub raises its promise.
    pub fn raise(&mut self, hub: Hub, ballot: Term) -> Result<(), Refusal> {
        if ballot <= self.promise(hub) {
            return Err(Refusal::PromiseLowered);
        }
        self.promises.insert(hub, ballot);
        Ok(())
    }

    /// A hub reports, at the ballot that it has promised, its highest vote per place.
    pub fn report(&mut self, hub: Hub, ballot: Term) -> Result<(), Refusal> {
        if self.promise(hub) != ballot {
            return Err(Refusal::ReportNotPromised);
        }
        let report = self.highest[&hub].clone();
        self.reports.entry(ballot).or_default().push((hub, report));
        Ok(())
    }

    /// A command is proposed that a majority's reports allow.
    pub fn propose(&mut self, ballot: Term, place: Place, command: Command) -> Result<(), Refusal> {
        self.licence(ballot, place, &command)?;
        if self.proposals.contains_key(&(ballot, place)) {
            return Err(Refusal::SecondProposal);
        }
        self.proposals.insert((ballot, place), Proposal { command, voters: BTreeSet::new() });
        Ok(())
    }

    /// A hub votes for a proposal.
    pub fn vote(&mut self, hub: Hub, ballot: Term, place: Place, command: Command) -> Result<(), Refusal> {
        if self.promise(hub) > ballot {
            return Err(Refusal::VoteBelowPromise);
        }
        let proposal =
            self.proposals.get_mut(&(ballot, place)).filter(|proposal| proposal.command == command);
        let proposal = proposal.ok_or(Refusal::VoteWithoutProposal)?;
        proposal.voters.insert(hub);
        if proposal.voters.len() >= self.majority {
            self.chosen.insert(place, command);
        }
        let highest = self.highest.entry(hub).or_default().entry(place).or_insert((ballot, command));
        if highest.0 < ballot {
            *highest = (ballot, command);
        }
        Ok(())
    }

    // ---- what may be proposed

    /// Whether there is a majority whose reports at the ballot allow the command at the place: their highest vote there is for it, or they
    /// have no vote there and a client asked for it.
    fn licence(&self, ballot: Term, place: Place, command: &Command) -> Result<(), Refusal> {
        let reports = self.reports.get(&ballot).map_or(&[][..], Vec::as_slice);
        // The majority may leave out hubs that reported, so all that count are those with no vote above a limit.
        let most_with = |limit: Term| {
            let low = |report: &Report| report.get(&place).is_none_or(|vote| vote.0 <= limit);
            let hubs: BTreeSet<Hub> =
                reports.iter().filter(|(_, report)| low(report)).map(|told| told.0).collect();
            hubs.len() >= self.majority
        };
        if !most_with(Term(u32::MAX)) {
            return Err(Refusal::NoMajorityReported);
        }
        let votes = reports.iter().filter_map(|(_, report)| report.get(&place));
        if votes.into_iter().any(|vote| vote.1 == *command && most_with(vote.0)) {
            return Ok(());
        }
        match (most_with(Term(0)), self.asked.contains(command)) {
            (true, true) => Ok(()),
            (true, false) => Err(Refusal::NotAskedFor),
            (false, _) => Err(Refusal::NotTheHighestVote),
        }
    }
}
