//! Playing a command, beside a plain Rust program that works in the machine's floats. Sixteen commands of a kind take turns, each at another
//! time, with random gains.

use crate::cpu::medians;
use crate::table;
use compare::binding;
use compare::generator::rng::{Rng, seed};
use compare::generator::states::bytes_of;
use image::Command;
use independent::Outcome;
use independent::command::{self, Case};

/// The bits of 1.0.
const ONE: u32 = 0x3f80_0000;

const CALLS: u32 = 2_000_000;

/// How many plays take turns.
const PLAYS: usize = 16;

/// A command that is played, and how long it has been.
#[derive(Clone, Copy)]
struct Play {
    command: Command,
    elapsed: i64,
    floor: u32,
    ceiling: u32,
}

/// A play of a kind of command at a time before its end, or past it.
fn made(rng: &mut Rng, kind: u32, past: bool) -> Play {
    let duration = if kind == 0 { 0 } else { 1 + rng.up_to(599_999) };
    let [a, b] = [rng.up_to(ONE), rng.up_to(ONE)];
    let command = match kind {
        0 => bytes_of(3, 0, 0, 0, 0),
        1 => bytes_of(3, 1, duration as i32, a, 0),
        _ => bytes_of(3, 2, duration as i32, a, b),
    };
    let elapsed = if past { duration + rng.up_to(600_000) } else { rng.up_to(duration.saturating_sub(1)) };
    let [one, other] = [rng.up_to(ONE), rng.up_to(ONE)];
    Play { command, elapsed: elapsed.into(), floor: one.min(other), ceiling: one.max(other) }
}

fn between(x: f32, y: f32, part: f32) -> f32 {
    (x + (y - x) * part).clamp(0.0, 1.0)
}

/// Plays in the machine's floats: the outcome, the time left, and the drive's bits.
fn plain(play: &Play) -> (Outcome, i64, u32) {
    let Ok(command) = command::read(&play.command) else { return (Outcome::NotPlayable, 0, 0) };
    if play.floor > ONE || play.ceiling > ONE || play.floor > play.ceiling {
        return (Outcome::BadCalibration, 0, 0);
    }
    if !(0..=i64::from(i32::MAX)).contains(&play.elapsed) {
        return (Outcome::BadElapsed, 0, 0);
    }
    let left = i64::from(command.duration) - play.elapsed;
    let level = match command.case {
        _ if left <= 0 => 0.0,
        Case::Stop => 0.0,
        Case::Buzz(gain) => gain,
        Case::Ramp(from, to) => between(from, to, play.elapsed as f32 / command.duration as f32),
    };
    let gains = [play.floor, play.ceiling].map(f32::from_bits);
    let drive = if level > 0.0 { between(gains[0], gains[1], level) } else { 0.0 };
    (Outcome::Done, left, drive.to_bits())
}

fn proved(play: &Play) -> (Outcome, i64, u32) {
    let (mut left, mut drive) = (0, 0);
    let outcome = binding::play(&play.command, play.elapsed, play.floor, play.ceiling, &mut left, &mut drive);
    (outcome, left, drive)
}

/// Plays the next of them at each call.
fn plays(program: fn(&Play) -> (Outcome, i64, u32), of: &[Play]) -> impl FnMut() {
    let mut turns = of.iter().cycle();
    move || {
        std::hint::black_box(program(std::hint::black_box(turns.next().expect("a turn"))));
    }
}

pub fn print() {
    table::head("Playing a command", &["", "proved", "plain Rust", "ratio"]);
    let rng = &mut Rng::quiet(seed());
    for (what, kind, past) in
        [("stop", 0, true), ("buzz", 1, false), ("ramp", 2, false), ("overdue ramp", 2, true)]
    {
        let of: Vec<Play> = (0..PLAYS).map(|_| made(rng, kind, past)).collect();
        assert!(of.iter().all(|play| proved(play) == plain(play)), "both play alike");
        table::times(what, medians(CALLS, plays(proved, &of), plays(plain, &of)));
    }
}
