//! A motor command: 16 bytes, big-endian: motor (2), kind (2), duration in ms, signed (4), a (4), b (4).

use crate::kinds::{Answer, Outcome};
use std::ops::RangeInclusive;

/// A command's bytes.
pub const SIZE: usize = 16;

const MOTORS: RangeInclusive<u16> = 1..=64;
const DURATIONS: RangeInclusive<i32> = 1..=600_000;

/// The shortest buzz or ramp that may be proposed, in ms: a motor does not spin up in less.
pub const FELT_LEAST: i32 = 20;

const STOP: u16 = 0;
const BUZZ: u16 = 1;
const RAMP: u16 = 2;

/// The bits of 1.0. As unsigned numbers the bits of +0 to 1.0 are exactly those up to here:
/// a sign bit or a NaN's exponent makes a greater number.
pub(crate) const GAIN_MOST: u32 = 0x3f80_0000;

/// What a motor is to do.
#[derive(Clone, Copy, Debug, PartialEq)]
pub enum Case {
    /// Stand still.
    Stop,
    /// Buzz with this gain.
    Buzz(f32),
    /// Go from the first gain to the second.
    Ramp(f32, f32),
}

/// A command to one motor.
#[derive(Clone, Copy, Debug, PartialEq)]
pub struct Command {
    /// The motor's number.
    pub motor: u16,
    /// For how many ms; signed, as in the bytes, so that a negative one is never a large one.
    pub duration: i32,
    /// What to do.
    pub case: Case,
}

/// Reads a command alone.
pub fn read(bytes: &[u8]) -> Result<Command, Outcome> {
    bytes.try_into().ok().and_then(decode).ok_or(Outcome::BadCommand)
}

/// Writes a command alone, to the first 16 bytes of `out`.
pub fn write(command: &Command, out: &mut [u8]) -> Answer {
    let Some(place) = out.first_chunk_mut::<SIZE>() else {
        return Answer::refused(Outcome::ShortOutput);
    };
    if !is_legal(command) {
        return Answer::refused(Outcome::BadCommand);
    }
    *place = encode(command);
    Answer::done(SIZE)
}

/// Whether these bytes are a legal command's.
pub(crate) fn bytes_legal(bytes: &[u8; SIZE]) -> bool {
    decode(bytes).is_some()
}

/// Whether a command of these bytes may be proposed. Shorter ones may still be held and sent.
pub(crate) fn may_propose(bytes: &[u8; SIZE]) -> bool {
    decode(bytes).is_some_and(|command| match command.case {
        Case::Stop => true,
        Case::Buzz(_) | Case::Ramp(..) => command.duration >= FELT_LEAST,
    })
}

fn decode(bytes: &[u8; SIZE]) -> Option<Command> {
    let &[m0, m1, k0, k1, d0, d1, d2, d3, a0, a1, a2, a3, b0, b1, b2, b3] = bytes;
    let a = u32::from_be_bytes([a0, a1, a2, a3]);
    let b = u32::from_be_bytes([b0, b1, b2, b3]);
    let case = match (u16::from_be_bytes([k0, k1]), a, b) {
        (STOP, 0, 0) => Case::Stop,
        (BUZZ, gain, 0) => Case::Buzz(f32::from_bits(gain)),
        (RAMP, from, to) => Case::Ramp(f32::from_bits(from), f32::from_bits(to)),
        _ => return None,
    };
    let command =
        Command { motor: u16::from_be_bytes([m0, m1]), duration: i32::from_be_bytes([d0, d1, d2, d3]), case };
    is_legal(&command).then_some(command)
}

fn encode(command: &Command) -> [u8; SIZE] {
    let (kind, a, b) = match command.case {
        Case::Stop => (STOP, 0, 0),
        Case::Buzz(gain) => (BUZZ, gain.to_bits(), 0),
        Case::Ramp(from, to) => (RAMP, from.to_bits(), to.to_bits()),
    };
    let mut bytes = [0; SIZE];
    bytes[0..2].copy_from_slice(&command.motor.to_be_bytes());
    bytes[2..4].copy_from_slice(&kind.to_be_bytes());
    bytes[4..8].copy_from_slice(&command.duration.to_be_bytes());
    bytes[8..12].copy_from_slice(&a.to_be_bytes());
    bytes[12..16].copy_from_slice(&b.to_be_bytes());
    bytes
}

fn is_legal(command: &Command) -> bool {
    let lasts = DURATIONS.contains(&command.duration);
    MOTORS.contains(&command.motor)
        && match command.case {
            Case::Stop => command.duration == 0,
            Case::Buzz(gain) => lasts && gain_legal(gain),
            Case::Ramp(from, to) => lasts && gain_legal(from) && gain_legal(to),
        }
}

fn gain_legal(gain: f32) -> bool {
    gain.to_bits() <= GAIN_MOST
}
