//! Random runs of whole groups with loss, repetition, reordering and restarts; and any state with any text.

mod common;
use common::*;
use independent::{Group, message, state};

/// What happened, so that a run in which nothing happens is noticed.
#[derive(Debug, Default)]
struct Tally {
    outcomes: [u32; 14],
    elections: u32,
    restarts: u32,
    reported: usize,
}

/// The network keeps at most this many texts; older ones are lost.
const AFLOAT: usize = 24;

struct Home {
    n: u32,
    dice: Dice,
    hubs: Vec<Vec<u8>>,
    afloat: Vec<(u32, String)>,
    proposals: u32,
    /// The command that some hub has reported at each place.
    settled: Vec<Command>,
    tally: Tally,
}

impl Home {
    fn new(n: u32, seed: u64, hub: &Image) -> Home {
        let settled = hub.log[..hub.chosen as usize].iter().map(|row| row.1).collect();
        Home {
            n,
            dice: Dice(seed),
            hubs: vec![hub.bytes(); n as usize],
            afloat: vec![],
            proposals: 1_000,
            settled,
            tally: Tally::default(),
        }
    }

    fn turn(&mut self) {
        let any = 1 + self.dice.below(self.n as usize) as u32;
        match self.dice.below(100) {
            0..2 => self.event(any, START, 0, 0, b""),
            2..3 => self.event(any, RESTART, 0, 0, b""),
            3..7 => {
                self.proposals += 1;
                let own = self.leader_or(any);
                self.event(own, PROPOSE, 0, 0, &command(self.proposals));
            }
            7..35 => self.send(any),
            _ => self.deliver(),
        }
    }

    /// One of those that think they lead, if there is one. Now and then the other, to be refused.
    fn leader_or(&mut self, other: u32) -> u32 {
        let leaders: Vec<u32> =
            (1..=self.n).filter(|&hub| self.hubs[hub as usize - 1][20] == LEADER).collect();
        if leaders.is_empty() || self.dice.one_in(20) {
            other
        } else {
            leaders[self.dice.below(leaders.len())]
        }
    }

    /// Mostly from where the peer's log ends, as a leader would find out; sometimes from anywhere.
    fn send(&mut self, peer: u32) {
        let own = self.leader_or(peer);
        let length = self.length(own);
        let near = length.min(self.length(peer));
        let prev = match self.dice.below(8) {
            0 => self.dice.below(length + 2),
            1 => 0,
            2..4 => near - self.dice.below(near.min(4) + 1),
            _ => near,
        };
        self.event(own, SEND, peer, prev as u32, b"");
    }

    fn length(&self, hub: u32) -> usize {
        u32::from_be_bytes(self.hubs[hub as usize - 1][12..16].try_into().unwrap()) as usize
    }

    /// Any text afloat, so out of order; sometimes it is lost, sometimes it stays and comes again.
    fn deliver(&mut self) {
        if self.afloat.is_empty() {
            return;
        }
        let at = self.dice.below(self.afloat.len());
        let (to, text) =
            if self.dice.one_in(5) { self.afloat[at].clone() } else { self.afloat.swap_remove(at) };
        if !self.dice.one_in(10) {
            self.event(to, RECEIVE, 0, 0, text.as_bytes());
        }
    }

    fn event(&mut self, own: u32, event: u32, a: u32, b: u32, input: &[u8]) {
        let before = self.hubs[own as usize - 1].clone();
        let after = call(self.n, own, event, a, b, &before, input, OUT_SIZE);
        assert!(![1, 2, 3, 4, 5, 7, 9, 10].contains(&after.outcome), "outcome {}", after.outcome);
        let image = Image::read(&after.state).expect("an image");
        assert!(legal(&image, At(self.n, own)), "not legal: {image:?}");
        self.tally.outcomes[after.outcome as usize] += 1;
        self.tally.elections += u32::from(before[20] == CANDIDATE && image.role == LEADER);
        self.tally.restarts += u32::from(event == RESTART);
        self.hubs[own as usize - 1] = after.state;
        self.check_reported(own, before[8..12].try_into().unwrap());
        self.post(&after.text);
    }

    /// No two hubs ever report different commands at one place, and none takes back a report.
    fn check_reported(&mut self, own: u32, chosen_before: [u8; 4]) {
        let group = Group::new(self.n, own).unwrap();
        let reported = state::reported(&self.hubs[own as usize - 1], group).unwrap();
        let mut count = 0;
        for (place, command) in reported.enumerate() {
            if place == self.settled.len() {
                self.settled.push(*command);
            }
            assert_eq!(&self.settled[place], command, "hub {own} at place {}", place + 1);
            count += 1;
        }
        assert!(count >= u32::from_be_bytes(chosen_before), "hub {own} reports less");
        self.tally.reported = self.settled.len();
    }

    fn post(&mut self, text: &str) {
        if text.is_empty() {
            return;
        }
        let message = message::read(text.as_bytes()).message.expect("a hub wrote an illegal text");
        match message.to.0 {
            0 => (1..=self.n)
                .filter(|&hub| hub != message.from.0)
                .for_each(|hub| self.afloat.push((hub, text.into()))),
            to => self.afloat.push((to, text.into())),
        }
        while self.afloat.len() > AFLOAT {
            let lost = self.dice.below(self.afloat.len());
            self.afloat.swap_remove(lost);
        }
    }
}

fn run(n: u32, seed: u64, turns: u32, hub: &Image) -> Tally {
    println!("n {n}, seed {seed}");
    let mut home = Home::new(n, seed, hub);
    for _ in 0..turns {
        home.turn();
    }
    println!("{:?}", home.tally);
    home.tally
}

/// Many short runs: young logs are where ballots and terms differ most.
fn runs(n: u32) {
    for seed in 1..=8 {
        let tally = run(n, seed, 1_200, &Image::default());
        assert!(tally.elections > 2 && tally.restarts > 2 && tally.reported > 3, "{tally:?}");
        assert!(tally.outcomes[0] > 200 && tally.outcomes[6] > 0 && tally.outcomes[13] > 0, "{tally:?}");
    }
}

#[test]
fn three_hubs() {
    runs(3);
}

#[test]
fn five_hubs() {
    runs(5);
}

#[test]
fn seven_hubs() {
    runs(7);
}

/// Logs that fill up: every hub begins with the same chosen places.
#[test]
fn full_logs() {
    for (n, seed) in [(3, 11), (5, 12), (7, 13)] {
        let tally = run(n, seed, 1_000, &follower(1, 1, 240, &[1; 246]));
        assert!(tally.reported > 246, "{tally:?}");
    }
}

// ---- any legal state with any text, as no hub keeping to the rules would meet it

impl Dice {
    fn upto(&mut self, bound: u32) -> u32 {
        self.below(bound as usize + 1) as u32
    }

    fn rows(&mut self, count: u32, most: u32, rising: bool) -> Vec<(u32, Command)> {
        let mut rows: Vec<_> =
            (0..count).map(|_| (1 + self.upto(most - 1), command(1 + self.upto(9)))).collect();
        if rising {
            rows.sort_by_key(|row| row.0);
        }
        rows
    }

    /// Small numbers, so that states and texts often meet.
    fn hub(&mut self, At(n, own): At) -> Image {
        let term = self.upto(4);
        let ballot = self.upto(term);
        let length = if ballot == 0 { 0 } else { self.upto(4) };
        let log = self.rows(length, ballot, true);
        let mut hub = Image { term, ballot, chosen: self.upto(length), log, ..Image::default() };
        if ballot < term && self.one_in(2) {
            hub.role = CANDIDATE;
            hub.voters = std::array::from_fn(|at| u8::from(at < n as usize && self.one_in(4)));
            hub.voters[own as usize - 1] = 1;
            let count = if term == 1 { 0 } else { self.upto(3) };
            hub.gathered = self.rows(count, term - 1, false);
        } else if ballot == term && term > 0 && self.one_in(2) {
            hub.role = LEADER;
            hub.confirmed = std::array::from_fn(|at| if at < n as usize { self.upto(length) } else { 0 });
            hub.confirmed[own as usize - 1] = length;
        }
        hub
    }

    fn text(&mut self, n: u32, own: u32) -> String {
        let (term, from) = (1 + self.upto(4), 1 + self.upto(n - 1));
        let (place, ballot, chosen) = (self.upto(5), self.upto(term), self.upto(5));
        let prevterm = if place == 0 { 0 } else { 1 + self.upto(term - 1) };
        let (count, most) = (self.upto(3), ballot.max(1));
        let rows: String = self
            .rows(count, most, true)
            .iter()
            .map(|row| format!("entry={}:{}\n", row.0, hex(&row.1)))
            .collect();
        let head = |name, to| format!("type={name}\nterm={term}\nfrom={from}\nto={to}\n");
        match self.below(6) {
            0 => head("vote-request", 0) + &format!("last={place}\nballot={ballot}\n"),
            1 => head("vote-yes", own) + &format!("last={place}\nballot={ballot}\ncount={count}\n{rows}"),
            2 => head("vote-no", own),
            3 => head("append-yes", own) + &format!("end={place}\n"),
            4 => head("append-no", own) + &format!("length={place}\n"),
            _ => {
                let fields = format!("prev={place}\nprevterm={prevterm}\nchosen={chosen}\ncount={count}\n");
                head("append", own) + &fields + &rows
            }
        }
    }
}

#[test]
fn any_state_and_any_text() {
    let mut dice = Dice(99);
    let mut outcomes = [0; 14];
    for turn in 0..8_000 {
        let n = [3, 5, 7][dice.below(3)];
        let at = At(n, 1 + dice.upto(n - 1));
        let hub = dice.hub(at);
        // Too many votes may have come up; all else is legal by the way it was made.
        if !legal(&hub, at) {
            assert_eq!(at.receive(&hub, "").outcome, 2);
            continue;
        }
        let after = at.receive(&hub, &dice.text(n, at.1));
        let image = Image::read(&after.state).expect("an image");
        assert!(legal(&image, at), "turn {turn}: {hub:?} to {image:?}");
        assert!(after.text.is_empty() || message::read(after.text.as_bytes()).message.is_ok());
        assert!(image.term >= hub.term && image.ballot >= hub.ballot && image.chosen >= hub.chosen);
        assert!(image.log.len() >= hub.log.len(), "turn {turn}: the log was cut");
        outcomes[after.outcome as usize] += 1;
    }
    println!("{outcomes:?}");
    for outcome in [0, 4, 5, 6, 7, 13] {
        assert!(outcomes[outcome] > 30, "{outcomes:?}");
    }
}

/// A text with some bytes changed is refused, or is the one text of the message that it is read as.
#[test]
fn noise() {
    let mut dice = Dice(7);
    let mut read = [0, 0];
    for _ in 0..12_000 {
        let mut text = dice.text(7, 1).into_bytes();
        for _ in 0..dice.below(3) {
            let at = dice.below(text.len());
            text[at] = b"0123456789abcdef=:\n-\xff"[dice.below(21)];
        }
        let reading = message::read(&text);
        read[usize::from(reading.message.is_ok())] += 1;
        if let Ok(message) = reading.message {
            let mut out = vec![0; OUT_SIZE];
            let answer = message::write(&message, message::Entries::new(reading.entries), &mut out);
            assert_eq!((answer.outcome.number(), &out[..answer.written]), (0, &text[..]));
        }
    }
    assert!(read[0] > 1_000 && read[1] > 1_000, "{read:?}");
}
