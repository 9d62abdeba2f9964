//! Commands, read and written alone: the proved library and the independent program give the same answers and leave the same bytes.

use compare::binding::watched::Watched;
use compare::binding::{read_command, write_command};
use compare::generator::rng::{Rng, rounds, seed};
use compare::generator::states::bytes_of;
use independent::Outcome;
use independent::command::{self, Case, Command};

/// What stands in lent numbers before a call, so that a number left alone is seen.
const BEFORE: [u32; 7] = [11, 12, 13, 14, 15, 16, 17];

/// The answer, and the numbers left, that the independent program's reading comes to.
fn told(read: Result<Command, Outcome>, room: usize) -> (Outcome, Vec<u32>) {
    let mut numbers = BEFORE[..room].to_vec();
    let command = match read {
        _ if room < 5 => return (Outcome::ShortOutput, numbers),
        Err(outcome) => return (outcome, numbers),
        Ok(command) => command,
    };
    let (kind, a, b) = match command.case {
        Case::Stop => (0, 0, 0),
        Case::Buzz(gain) => (1, gain.to_bits(), 0),
        Case::Ramp(from, to) => (2, from.to_bits(), to.to_bits()),
    };
    numbers[..5].copy_from_slice(&[command.motor.into(), kind, command.duration as u32, a, b]);
    (Outcome::Done, numbers)
}

fn compare_read_into(bytes: &[u8], room: usize) {
    let mut numbers = BEFORE[..room].to_vec();
    let outcome = read_command(bytes, &mut numbers);
    assert_eq!((outcome, numbers), told(command::read(bytes), room), "{bytes:02x?}");
}

fn compare_read(bytes: &[u8]) {
    compare_read_into(bytes, BEFORE.len());
}

/// Numbers at and next to every edge that the rules name.
const MOTORS: [u32; 6] = [0, 1, 2, 64, 65, 65_535];
const KINDS: [u32; 5] = [0, 1, 2, 3, 65_535];
const DURATIONS: [i32; 9] = [i32::MIN, -1, 0, 1, 19, 20, 600_000, 600_001, i32::MAX];
const BITS: [u32; 9] =
    [0, 1, 0x3f00_0000, 0x3f7f_ffff, 0x3f80_0000, 0x3f80_0001, 0x7f80_0000, 0x7fc0_0000, 0x8000_0000];

/// Calls a function with every combination of the edges.
fn each_edge(mut call: impl FnMut(u32, u32, i32, u32, u32)) {
    for motor in MOTORS {
        for kind in KINDS {
            for duration in DURATIONS {
                for a in BITS {
                    for b in BITS {
                        call(motor, kind, duration, a, b);
                    }
                }
            }
        }
    }
}

#[test]
fn edges_are_read_alike() {
    each_edge(|motor, kind, duration, a, b| compare_read(&bytes_of(motor, kind, duration, a, b)));
}

#[test]
fn other_lengths_are_refused_alike() {
    let bytes = [bytes_of(3, 1, 250, 0x3f00_0000, 0), bytes_of(3, 1, 250, 0x3f00_0000, 0)].concat();
    for length in 0..=bytes.len() {
        compare_read(&bytes[..length]);
    }
}

#[test]
fn few_numbers_are_refused_alike() {
    for room in 0..=BEFORE.len() {
        compare_read_into(&bytes_of(3, 1, 250, 0x3f00_0000, 0), room);
        compare_read_into(&bytes_of(65, 1, 250, 0x3f00_0000, 0), room);
    }
}

#[test]
fn changed_bytes_are_read_alike() {
    let mut rng = Rng::seeded(seed());
    for _ in 0..20_000 * rounds() {
        let mut bytes = bytes_of(
            rng.pick(&MOTORS),
            rng.below(3) as u32,
            rng.pick(&DURATIONS),
            rng.pick(&BITS),
            rng.pick(&[0, 0x3f80_0000]),
        );
        compare_read(&bytes);
        bytes[rng.below(16) as usize] = rng.next() as u8;
        compare_read(&bytes);
    }
}

/// The independent program writes a case, so only the numbers of one can be compared; others have to be refused with 10.
fn compare_write(motor: u32, kind: u32, duration: i32, a: u32, b: u32, room: usize) {
    let before: Vec<u8> = (0..room as u8).map(|index| index ^ 0x5a).collect();
    let case = match (kind, a, b) {
        (0, 0, 0) => Some(Case::Stop),
        (1, gain, 0) => Some(Case::Buzz(f32::from_bits(gain))),
        (2, from, to) => Some(Case::Ramp(f32::from_bits(from), f32::from_bits(to))),
        _ => None,
    };
    let mut theirs = before.clone();
    let expected = match case {
        Some(case) => command::write(&Command { motor: motor as u16, duration, case }, &mut theirs).outcome,
        None if room < command::SIZE => Outcome::ShortOutput,
        None => Outcome::BadCommand,
    };
    let mut ours = Watched::new(&before);
    let outcome = write_command(motor, kind, duration, a, b, ours.lend());
    assert_eq!(outcome, expected, "{motor} {kind} {duration} {a:08x} {b:08x} in {room} bytes");
    assert_eq!(ours.bytes(), theirs);
}

#[test]
fn edges_are_written_alike() {
    each_edge(|motor, kind, duration, a, b| compare_write(motor, kind, duration, a, b, 20));
}

#[test]
fn short_outputs_are_refused_alike() {
    for room in 0..=20 {
        compare_write(3, 1, 250, 0x3f00_0000, 0, room);
        compare_write(65, 1, 250, 0x3f00_0000, 0, room);
        compare_write(3, 7, 250, 0, 0, room);
    }
}

#[test]
fn what_is_written_is_read_back() {
    each_edge(|motor, kind, duration, a, b| {
        let mut bytes = [0; 16];
        if write_command(motor, kind, duration, a, b, &mut bytes) == Outcome::Done {
            let mut numbers = [0; 5];
            assert_eq!(read_command(&bytes, &mut numbers), Outcome::Done);
            assert_eq!(numbers, [motor, kind, duration as u32, a, b]);
        }
    });
}
