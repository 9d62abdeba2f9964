//! Playing a command: what its motor is driven with so many ms after it began, and the time left. Gains, levels and drives are given by the
//! bits of a binary32.

use crate::binary32::{difference, product, quotient, sum, whole};
use crate::command::{self, Case, Command, GAIN_MOST};
use crate::kinds::Outcome;
use std::ops::RangeInclusive;

const ELAPSED: RangeInclusive<i64> = 0..=2_147_483_647;

/// What is told of a command that is played.
#[derive(Debug, Clone, Copy, PartialEq, Eq)]
pub struct Played {
    /// The number of the outcome.
    pub outcome: u32,
    /// The time left, in ms; below zero the command is overdue by that much.
    pub left: i64,
    /// The drive.
    pub drive: u32,
}

/// Plays the command in these bytes, with the time elapsed, in ms, and the motor's calibration: floor and ceiling.
pub fn play(command: &[u8], elapsed: i64, floor: u32, ceiling: u32) -> Played {
    let command = match gate(command, elapsed, floor, ceiling) {
        Ok(command) => command,
        Err(outcome) => return Played { outcome: outcome.number(), left: 0, drive: 0 },
    };
    let left = i64::from(command.duration) - elapsed;
    let level = if left > 0 { level_of(&command, elapsed as u32) } else { 0 };
    let drive = if level > 0 { between(floor, ceiling, level) } else { 0 };
    Played { outcome: Outcome::Done.number(), left, drive }
}

/// A ramp's level at a time before its end.
pub fn level(from: u32, to: u32, duration: u32, elapsed: u32) -> u32 {
    between(from, to, quotient(whole(elapsed), whole(duration)))
}

/// What is refused, in its order.
fn gate(command: &[u8], elapsed: i64, floor: u32, ceiling: u32) -> Result<Command, Outcome> {
    let command = command::read(command).map_err(|_| Outcome::NotPlayable)?;
    let gains_legal = floor <= GAIN_MOST && ceiling <= GAIN_MOST;
    if !gains_legal || floor > ceiling {
        return Err(Outcome::BadCalibration);
    }
    if !ELAPSED.contains(&elapsed) {
        return Err(Outcome::BadElapsed);
    }
    Ok(command)
}

fn level_of(command: &Command, elapsed: u32) -> u32 {
    match command.case {
        Case::Stop => 0,
        Case::Buzz(gain) => gain.to_bits(),
        Case::Ramp(from, to) => level(from.to_bits(), to.to_bits(), command.duration as u32, elapsed),
    }
}

/// The gain that is this share of the way from one to another: `from + (to - from) * share`.
fn between(from: u32, to: u32, share: u32) -> u32 {
    held(sum(from, product(difference(to, from), share)))
}

/// A number held within 0 and 1. The bits of numbers that are not negative are ordered as the numbers are.
fn held(number: u32) -> u32 {
    let negative = number >> 31 == 1;
    if negative { 0 } else { number.min(GAIN_MOST) }
}
