//! Random runs of a home: hubs driven by any function of the step's form over a `Network`, with hubs that restart, stay away, and start
//! together. A restart finds anything where the lost parts were, and some texts come damaged. A `Checker` looks at every step. All that
//! happens comes from a seed: the same seed gives the same run.

use crate::binding::call::{Call, PROPOSE, RECEIVE, RESTART, SEND, START, Step};
use crate::binding::outcomes::Outcomes;
use crate::binding::{Answer, read_message};
use crate::checker::message::{Kind, Message};
use crate::checker::{Checker, Deed, Reason};
use crate::generator::damage;
use crate::generator::messages::{FIELDS, ROOM};
use crate::generator::network::{LONELY, Letter, Network, WEATHERS};
use crate::generator::rng::Rng;
use image::{
    BALLOT_AT, Command, Image, LEADER, LENGTH_AT, PLACES, ROLE_AT, STATE_SIZE, TERM_AT, confirmed_at,
    number_at, put_number,
};
use independent::command::FELT_LEAST;
use independent::{Hub, Outcome};
use std::collections::VecDeque;

/// What happened in runs, so that runs in which little happens are noticed.
#[derive(Clone, Debug, Default)]
pub struct Tally {
    pub steps: u64,
    pub outcomes: Outcomes,
    /// Restarts, each with the lost parts scrambled.
    pub restarts: u64,
    /// Texts delivered as they were written, and texts delivered damaged, which no longer read as a message.
    pub whole: u64,
    pub damaged: u64,
    /// Texts that still read as a message after damage; these are not delivered.
    pub still_read: u64,
    /// Texts heard once more by a copy of the hub that they were written to.
    pub reheard: u64,
    /// Messages received with effect, by type.
    pub received: [u64; 6],
    /// How often a hub began to lead, and how often after another one.
    pub led: u64,
    pub leader_changed: u64,
    /// Votes whose entries met gathered ones of another ballot.
    pub contested: u64,
    /// Votes asked of an empty log whose ballot is above the asker's.
    pub unblocked: u64,
    /// Places that some hub reported.
    pub reported: u64,
    /// Logs that became full.
    pub full: u64,
}

impl Tally {
    /// Adds another run's.
    pub fn add(&mut self, other: &Tally) {
        let sum =
            |mine: &mut [u64], more: &[u64]| mine.iter_mut().zip(more).for_each(|(own, add)| *own += add);
        self.outcomes.add(&other.outcomes);
        sum(&mut self.received, &other.received);
        self.steps += other.steps;
        self.restarts += other.restarts;
        self.whole += other.whole;
        self.damaged += other.damaged;
        self.still_read += other.still_read;
        self.reheard += other.reheard;
        self.led += other.led;
        self.leader_changed += other.leader_changed;
        self.contested += other.contested;
        self.unblocked += other.unblocked;
        self.reported += other.reported;
        self.full += other.full;
    }
}

/// A step that the checker did not let pass.
#[derive(Debug)]
pub struct Failure {
    pub reason: Reason,
    /// How many steps the run had, this one included.
    pub steps: u64,
    /// The last steps in words.
    pub trail: VecDeque<String>,
}

/// The size of the home of a seed.
pub fn size(seed: u64) -> u32 {
    [3, 5, 7][(seed % 3) as usize]
}

/// How many turns a home is run in tests: long enough for several leaders, short enough for logs to have room to the end.
pub const TURNS: u64 = 800;

/// How many of the last steps are told when a run fails.
const TRAIL: usize = 30;

/// The shortest buzz that may be proposed, in ms.
const LEAST: u32 = FELT_LEAST as u32;

/// A group of hubs with their network.
pub struct Home {
    n: u32,
    step: Step,
    rng: Rng,
    network: Network,
    states: Vec<Vec<u8>>,
    /// Until which turn each hub is away.
    away: Vec<u64>,
    now: u64,
    /// Logs of this length get no more proposals, unless it is the longest that there is.
    most: u32,
    proposals: u32,
    last_leader: Option<Hub>,
    checker: Checker,
    trail: VecDeque<String>,
    tally: Tally,
}

impl Home {
    /// A fresh home. Its size, too, comes from the seed.
    pub fn new(step: Step, seed: u64, watch: fn(u32) -> Checker) -> Home {
        let n = size(seed);
        let mut rng = Rng::quiet(seed);
        Home {
            n,
            step,
            network: Network::new(n),
            states: vec![vec![0; STATE_SIZE]; n as usize],
            away: vec![0; n as usize],
            now: 0,
            most: rng.pick(&[12, 40, 120, PLACES]),
            proposals: 0,
            last_leader: None,
            checker: watch(n),
            trail: VecDeque::new(),
            tally: Tally::default(),
            rng,
        }
    }

    /// Takes this many turns. A turn is any number of steps; often it is one, and sometimes none.
    pub fn run(mut self, turns: u64) -> Result<Tally, Failure> {
        while self.now < turns {
            if let Err(reason) = self.turn().and_then(|()| self.rehear()) {
                return Err(Failure { reason, steps: self.tally.steps, trail: self.trail });
            }
            self.now += 1;
        }
        self.tally.reported = self.checker.reported() as u64;
        Ok(self.tally)
    }

    fn turn(&mut self) -> Result<(), Reason> {
        if self.rng.below(30) == 0 {
            let weather = self.rng.pick(&WEATHERS);
            self.network.change(&mut self.rng, weather);
        }
        // Fresh hubs have equal ballots, which a quarrel needs.
        if self.rng.below(if self.now == 0 { 2 } else { 150 }) == 0 {
            return self.quarrel();
        }
        let weather = self.network.weather;
        let start = weather.start + if self.is_orphaned() { 10 } else { 0 };
        if self.rng.percent(start) {
            self.promptly(Home::start_some)?;
            return if self.rng.percent(50) { self.propose() } else { Ok(()) };
        }
        if self.rng.percent(weather.stop) {
            return self.stop_one();
        }
        if self.rng.percent(weather.propose) {
            return self.propose();
        }
        if self.rng.percent(12) { self.promptly(Home::send_some) } else { self.deliver() }
    }

    // ---- hubs

    fn hubs(&self) -> impl Iterator<Item = Hub> + use<> {
        (1..=self.n).map(Hub)
    }

    fn any_hub(&mut self) -> Hub {
        Hub(1 + self.rng.below(u64::from(self.n)) as u32)
    }

    fn state(&self, hub: Hub) -> &[u8] {
        &self.states[hub.0 as usize - 1]
    }

    fn is_away(&self, hub: Hub) -> bool {
        self.away[hub.0 as usize - 1] > self.now
    }

    fn leads(&self, hub: Hub) -> bool {
        self.state(hub)[ROLE_AT] == LEADER
    }

    fn term(&self, hub: Hub) -> u32 {
        number_at(self.state(hub), TERM_AT)
    }

    fn ballot(&self, hub: Hub) -> u32 {
        number_at(self.state(hub), BALLOT_AT)
    }

    fn length(&self, hub: Hub) -> u32 {
        number_at(self.state(hub), LENGTH_AT)
    }

    /// Whether no hub leads the latest term.
    fn is_orphaned(&self) -> bool {
        let latest = self.hubs().map(|hub| self.term(hub)).max();
        !self.hubs().any(|hub| self.leads(hub) && Some(self.term(hub)) == latest)
    }

    /// One that thinks it leads: mostly that of the latest term. Now and then any hub, to be refused.
    fn leader(&mut self) -> Option<Hub> {
        let mut leaders: Vec<Hub> =
            self.hubs().filter(|&hub| self.leads(hub) && !self.is_away(hub)).collect();
        leaders.sort_by_key(|&hub| self.term(hub));
        match self.rng.below(40) {
            0 => Some(self.any_hub()),
            1..12 if !leaders.is_empty() => Some(self.rng.pick(&leaders)),
            _ => leaders.last().copied(),
        }
    }

    fn lowest_ballot(&self) -> Option<Hub> {
        self.hubs().filter(|&hub| !self.is_away(hub)).min_by_key(|&hub| self.ballot(hub))
    }

    fn highest_ballot(&self) -> Option<Hub> {
        self.hubs().filter(|&hub| !self.is_away(hub)).max_by_key(|&hub| self.ballot(hub))
    }

    // ---- what hubs do of themselves

    /// Mostly one hub starts, sometimes two or three do before they hear of each other.
    fn start_some(&mut self) -> Result<(), Reason> {
        for _ in 0..self.rng.pick(&[1, 1, 1, 1, 1, 1, 2, 3]) {
            // Nobody refuses the hub with the highest ballot.
            let highest = self.highest_ballot().filter(|_| self.rng.percent(50));
            let hub = highest.unwrap_or(self.any_hub());
            if !self.is_away(hub) {
                self.call(hub, START, 0, 0, b"")?;
            }
        }
        Ok(())
    }

    /// As many hubs as are a majority lead in turn, each elected by those that took nothing from the ones before, and all but the last
    /// add commands that nobody hears of. Then they are alone, and the last asks again: what it gathers differs in ballots.
    fn quarrel(&mut self) -> Result<(), Reason> {
        self.network.change(&mut self.rng, LONELY);
        let mut together = Vec::new();
        for left in (0..=self.n / 2).rev() {
            together.extend(self.lowest_ballot());
            self.promptly(|home| home.start_again(home.lowest_ballot()))?;
            if left > 0 {
                self.propose()?;
            }
        }
        self.network.part(&together);
        self.promptly(|home| home.start_again(home.highest_ballot()))
    }

    /// A hub starts that may have led until now.
    fn start_again(&mut self, hub: Option<Hub>) -> Result<(), Reason> {
        let Some(hub) = hub else { return Ok(()) };
        self.call(hub, RESTART, 0, 0, b"")?;
        self.call(hub, START, 0, 0, b"")
    }

    /// A hub restarts, or stays away for a while, or both. Often it is one that leads.
    fn stop_one(&mut self) -> Result<(), Reason> {
        let leader = self.leader().filter(|_| self.rng.percent(50));
        let hub = leader.unwrap_or(self.any_hub());
        if self.rng.percent(30) {
            self.away[hub.0 as usize - 1] = self.now + 20 + self.rng.below(200);
        }
        if self.rng.percent(80) { self.call(hub, RESTART, 0, 0, b"") } else { Ok(()) }
    }

    fn propose(&mut self) -> Result<(), Reason> {
        let Some(hub) = self.leader() else { return Ok(()) };
        // Many at once where the log may become full, or it never would.
        let at_once = match self.length(hub) {
            length if length >= self.most && self.most < PLACES => return Ok(()),
            length if length < PLACES && self.most == PLACES => 48,
            _ => 4,
        };
        for _ in 0..1 + self.rng.below(at_once) {
            self.proposals += 1;
            let mut command = command(self.proposals);
            if self.rng.below(60) == 0 {
                spoil(self.proposals, &mut command);
            }
            self.call(hub, PROPOSE, 0, 0, &command)?;
        }
        Ok(())
    }

    /// A leader sends to some hubs; to itself it is refused.
    fn send_some(&mut self) -> Result<(), Reason> {
        let Some(hub) = self.leader() else { return Ok(()) };
        for peer in self.hubs() {
            if self.rng.percent(if peer == hub { 5 } else { 60 }) {
                self.send(hub, peer)?;
            }
        }
        Ok(())
    }

    /// Mostly from what the peer has confirmed, or from where its log ends; sometimes from anywhere.
    fn send(&mut self, hub: Hub, peer: Hub) -> Result<(), Reason> {
        let length = self.length(hub);
        let near = length.min(self.length(peer));
        let prev = match self.rng.below(10) {
            0 => self.rng.below(u64::from(length) + 2) as u32,
            1 | 2 => near,
            3 => near - self.rng.below(u64::from(near.min(4)) + 1) as u32,
            _ => number_at(self.state(hub), confirmed_at(peer.0)),
        };
        self.call(hub, SEND, peer.0, prev, b"")
    }

    // ---- what hubs are handed

    fn deliver(&mut self) -> Result<(), Reason> {
        let letter = self.network.take(&mut self.rng, self.now, 0);
        letter.map_or(Ok(()), |letter| self.hand_over(letter))
    }

    /// Does something, and mostly what it makes hubs write is delivered at once, and the answers too.
    fn promptly(&mut self, act: fn(&mut Home) -> Result<(), Reason>) -> Result<(), Reason> {
        let waiting = self.network.afloat();
        act(self)?;
        if self.rng.percent(self.network.weather.prompt) {
            while let Some(letter) = self.network.take(&mut self.rng, self.now, waiting) {
                self.hand_over(letter)?;
            }
        }
        Ok(())
    }

    /// What is for a hub that is away waits for it, or is lost.
    fn hand_over(&mut self, letter: Letter) -> Result<(), Reason> {
        if self.is_away(letter.to) {
            if self.rng.percent(30) {
                let back = self.away[letter.to.0 as usize - 1];
                self.network.hold(letter, back);
            }
            return Ok(());
        }
        if self.rng.percent(self.network.weather.damaged) {
            return self.hand_over_damaged(letter);
        }
        self.tally.whole += 1;
        self.call(letter.to, RECEIVE, 0, 0, &letter.text)
    }

    /// A text that still reads as a message after damage is lost: nobody promises anything of hubs that take what no hub wrote.
    fn hand_over_damaged(&mut self, mut letter: Letter) -> Result<(), Reason> {
        damage::text(&mut self.rng, &mut letter.text);
        if read_message(&letter.text, &mut [0; FIELDS]).outcome == Outcome::Done {
            self.tally.still_read += 1;
            return Ok(());
        }
        self.tally.damaged += 1;
        self.take(letter.to, [RECEIVE, 0, 0], &letter.text, true)
    }

    /// A copy of a hub hears something that was ever written to it. Whatever the moment, that is no text to be refused as damaged.
    fn rehear(&mut self) -> Result<(), Reason> {
        let Some(Letter { to, text, .. }) = self.network.any_posted(&mut self.rng) else { return Ok(()) };
        let (state, out) = (&mut self.state(*to).to_vec(), &mut vec![0; ROOM]);
        let (n, own, input) = (self.n, *to, text);
        let Answer { outcome, .. } =
            (self.step)(&mut Call { n, own, event: RECEIVE, a: 0, b: 0, state, input, out });
        self.tally.reheard += 1;
        let told = || format!("a copy of hub {} hears {}: {outcome:?}", own.0, String::from_utf8_lossy(text));
        self.checker.hear(outcome).inspect_err(|_| self.trail.push_back(told()))
    }

    // ---- one step

    fn call(&mut self, hub: Hub, event: u32, a: u32, b: u32, input: &[u8]) -> Result<(), Reason> {
        self.take(hub, [event, a, b], input, false)
    }

    /// Takes a step. If it is done, what it leaves is stored; else what was stored stays.
    fn take(&mut self, hub: Hub, [event, a, b]: [u32; 3], input: &[u8], damaged: bool) -> Result<(), Reason> {
        let index = hub.0 as usize - 1;
        let before = self.states[index].clone();
        let lent = self.lent(&before, event);
        let (mut left, mut out) = (lent.clone(), vec![0; ROOM]);
        let state = &mut left;
        let Answer { outcome, place, second } =
            (self.step)(&mut Call { n: self.n, own: hub, event, a, b, state, input, out: &mut out });
        if outcome == Outcome::Done {
            self.states[index].clone_from(&left);
        }
        self.note(&before, hub, event, input, outcome);
        let (stored, text) = (&self.states[index], &out[..second as usize]);
        let deed =
            Deed { hub, event, input, damaged, outcome, place, lent: &lent, left: &left, stored, text };
        self.checker.see(&deed)?;
        if let Some(message) = Message::read(text) {
            self.network.post(&mut self.rng, self.now, &message, text);
        }
        Ok(())
    }

    /// The bytes that a step begins with: those stored, but at a restart anything stands where the lost parts were.
    fn lent(&mut self, stored: &[u8], event: u32) -> Vec<u8> {
        let mut lent = stored.to_vec();
        if event == RESTART {
            self.tally.restarts += 1;
            damage::lost(&mut self.rng, &mut lent);
        }
        lent
    }

    fn note(&mut self, before: &[u8], hub: Hub, event: u32, input: &[u8], outcome: Outcome) {
        self.tally.steps += 1;
        self.tally.outcomes[outcome] += 1;
        let message = if event == RECEIVE { Message::read(input) } else { None };
        let heard = message.as_ref().map_or(String::new(), |message| {
            format!(" {} of term {} from hub {}", message.name(), message.term().0, message.from().0)
        });
        self.trail.push_back(format!("hub {} event {event}{heard}: {outcome:?}", hub.0));
        if self.trail.len() > TRAIL {
            self.trail.pop_front();
        }
        if outcome == Outcome::Done {
            self.note_effect(before, hub, message.as_ref());
        }
    }

    fn note_effect(&mut self, before: &[u8], hub: Hub, message: Option<&Message>) {
        if let Some(message) = message {
            self.tally.received[message.kind as usize] += 1;
            self.tally.contested += u64::from(is_contested(before, message));
            self.tally.unblocked += u64::from(is_unblocked(before, message));
        }
        if self.leads(hub) && before[ROLE_AT] != LEADER {
            self.tally.led += 1;
            self.tally.leader_changed += u64::from(self.last_leader.is_some_and(|last| last != hub));
            self.last_leader = Some(hub);
        }
        let is_full = |state: &[u8]| number_at(state, LENGTH_AT) == PLACES;
        self.tally.full += u64::from(is_full(self.state(hub)) && !is_full(before));
    }
}

/// Whether a vote's entries meet gathered ones of another ballot.
fn is_contested(before: &[u8], message: &Message) -> bool {
    let Some(state) = Image::read(before) else { return false };
    let ballot = message.number("ballot");
    let mut met = state.gathered.iter().zip(&message.entries);
    message.kind == Kind::VoteYes && met.any(|(held, _)| held.0 != ballot)
}

/// Whether a request is heard by an empty log whose ballot is above it.
fn is_unblocked(before: &[u8], message: &Message) -> bool {
    let empty = number_at(before, LENGTH_AT) == 0;
    message.kind == Kind::VoteRequest && empty && number_at(before, BALLOT_AT) > message.number("ballot")
}

/// A command that may be proposed, another for each number: a buzz with gain 0.5.
fn command(number: u32) -> Command {
    let mut bytes = [0, 1 + (number % 64) as u8, 0, 1, 0, 0, 0, 0, 0x3f, 0, 0, 0, 0, 0, 0, 0];
    put_number(&mut bytes, 4, LEAST + number / 64);
    bytes
}

/// Makes it one that may not be proposed: no such motor, or too short to feel, by turns.
fn spoil(number: u32, command: &mut Command) {
    match number % 2 {
        0 => command[1] = 0,
        _ => put_number(command, 4, LEAST - 1),
    }
}
