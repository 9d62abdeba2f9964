//! A home's network: texts under way between hubs. It loses, repeats, reorders, delays and damages them, but never makes one up.

use crate::checker::message::{Kind, Message};
use crate::generator::rng::Rng;
use independent::Hub;

/// How a network and its hubs behave for a while: chances in a hundred.
#[derive(Clone, Copy)]
pub struct Weather {
    /// That a letter is lost, comes again, comes late, or comes damaged.
    pub lost: u64,
    pub again: u64,
    pub late: u64,
    pub damaged: u64,
    /// That an append is lost, beside that: leaders stay alone with what they add.
    pub unheard: u64,
    /// That what was just written is delivered at once, and so are the answers.
    pub prompt: u64,
    /// That the home is split in two, between which letters are lost.
    pub split: u64,
    /// That in a turn a hub starts, stops, or is asked to propose.
    pub start: u64,
    pub stop: u64,
    pub propose: u64,
}

const CALM: Weather = Weather {
    lost: 2,
    again: 3,
    late: 2,
    damaged: 2,
    unheard: 0,
    prompt: 80,
    split: 0,
    start: 1,
    stop: 2,
    propose: 15,
};
const ROUGH: Weather =
    Weather { lost: 15, again: 15, late: 15, damaged: 10, prompt: 20, split: 20, start: 3, stop: 4, ..CALM };
const SPLIT: Weather =
    Weather { lost: 10, late: 5, unheard: 20, prompt: 60, split: 100, start: 8, propose: 30, ..CALM };
pub const LONELY: Weather =
    Weather { again: 15, unheard: 90, prompt: 90, split: 30, start: 12, propose: 12, ..CALM };

/// Each kind of weather.
pub const WEATHERS: [Weather; 4] = [CALM, ROUGH, SPLIT, LONELY];

/// A text on its way to a hub, not before it is due.
#[derive(Clone)]
pub struct Letter {
    pub to: Hub,
    pub text: Vec<u8>,
    due: u64,
}

/// More letters than these are not under way: some are lost.
const MOST: usize = 120;

/// How late a late letter may be, in turns.
const LATEST: u64 = 600;

/// How many letters count as the latest.
const LATELY: usize = 20;

pub struct Network {
    n: u32,
    letters: Vec<Letter>,
    /// All that were ever posted, those that were lost among them.
    posted: Vec<Letter>,
    pub weather: Weather,
    /// The side on which each hub is, at its number less one.
    sides: Vec<bool>,
}

impl Network {
    pub fn new(n: u32) -> Network {
        let sides = vec![false; n as usize];
        Network { n, letters: Vec::new(), posted: Vec::new(), weather: CALM, sides }
    }

    /// The weather changes, and with it who hears whom.
    pub fn change(&mut self, rng: &mut Rng, weather: Weather) {
        self.weather = weather;
        let split = rng.percent(weather.split);
        self.sides = (0..self.n).map(|_| split && rng.percent(50)).collect();
    }

    /// These hubs hear only each other, until the weather changes.
    pub fn part(&mut self, together: &[Hub]) {
        self.sides = (1..=self.n).map(|hub| together.contains(&Hub(hub))).collect();
    }

    fn are_apart(&self, one: Hub, other: Hub) -> bool {
        self.sides[one.0 as usize - 1] != self.sides[other.0 as usize - 1]
    }

    /// Takes a hub's message on its way; to each of the others if it is to all.
    pub fn post(&mut self, rng: &mut Rng, now: u64, message: &Message, text: &[u8]) {
        let from = message.from();
        let meant = |hub: &Hub| *hub != from && (message.to() == Hub(0) || message.to() == *hub);
        for to in (1..=self.n).map(Hub).filter(meant) {
            self.posted.push(Letter { to, text: text.to_vec(), due: now });
            let unheard = message.kind == Kind::Append && rng.percent(self.weather.unheard);
            if unheard || self.are_apart(from, to) || rng.percent(self.weather.lost) {
                continue;
            }
            let delay = if rng.percent(self.weather.late) { rng.below(LATEST) } else { 0 };
            self.letters.push(Letter { to, text: text.to_vec(), due: now + delay });
        }
        while self.letters.len() > MOST {
            let lost = rng.below(self.letters.len() as u64) as usize;
            self.letters.remove(lost);
        }
    }

    /// Any letter that was ever posted, of the latest as often as of all.
    pub fn any_posted(&self, rng: &mut Rng) -> Option<&Letter> {
        let skipped = if rng.percent(50) { self.posted.len().saturating_sub(LATELY) } else { 0 };
        let some = &self.posted[skipped..];
        if some.is_empty() { None } else { Some(&some[rng.below(some.len() as u64) as usize]) }
    }

    /// Keeps a letter until then.
    pub fn hold(&mut self, letter: Letter, due: u64) {
        self.letters.push(Letter { due, ..letter });
    }

    /// How many letters are under way.
    pub fn afloat(&self) -> usize {
        self.letters.len()
    }

    /// Any of the letters that are due, so in any order, but none of the first `skipped`. Some will come again.
    pub fn take(&mut self, rng: &mut Rng, now: u64, skipped: usize) -> Option<Letter> {
        let due: Vec<usize> =
            (skipped..self.letters.len()).filter(|&index| self.letters[index].due <= now).collect();
        if due.is_empty() {
            return None;
        }
        let letter = self.letters.remove(rng.pick(&due));
        if rng.percent(self.weather.again) {
            let due = now + rng.pick(&[0, 1, 10, 60]);
            self.hold(letter.clone(), due);
        }
        Some(letter)
    }
}
