//! Playing a command: the proved library and the independent program tell the same outcome, time left and drive, and all else that was lent
//! stays. `KRITNAMON_ROUNDS=50` makes a longer run of it, `KRITNAMON_SEED` another one; the seed is printed.

use compare::binding;
use compare::binding::outcomes::Outcomes;
use compare::binding::watched::Watched;
use compare::generator::damage;
use compare::generator::rng::{Rng, rounds, seed};
use compare::generator::states::bytes_of;
use independent::Outcome;
use independent::play::{Played, play};

const STOP: u32 = 0;
const BUZZ: u32 = 1;
const RAMP: u32 = 2;

/// The bits of 1.0.
const ONE: u32 = 0x3f80_0000;

/// What is lent for the time left and for the drive before a call: the number in the middle, and others around it.
const LEFT: [i64; 5] = [11, -12, 0x1357_9bdf_0246_8ace, -14, 15];
const DRIVE: [u32; 5] = [21, 22, 0xdead_beef, 24, 25];

/// What a command is played with.
#[derive(Clone, Copy, Debug)]
struct With {
    elapsed: i64,
    floor: u32,
    ceiling: u32,
}

/// The outcomes that were given; of the plays that were done how many there were of each kind, and how many with a drive above 0.
#[derive(Debug, Default)]
struct Tally {
    plays: u64,
    outcomes: Outcomes,
    done_by_kind: [u64; 3],
    driven: u64,
}

impl Tally {
    /// Plays a command with both programs, compares every lent byte, and counts it.
    fn compare(&mut self, command: &[u8], with: With) -> Outcome {
        let With { elapsed, floor, ceiling } = with;
        let mut lent = Watched::new(command);
        let (mut left, mut drive) = (LEFT, DRIVE);
        let outcome = binding::play(lent.lend(), elapsed, floor, ceiling, &mut left[2], &mut drive[2]);
        let ours = Played { outcome: outcome.number(), left: left[2], drive: drive[2] };
        assert_eq!(ours, play(command, elapsed, floor, ceiling), "{command:02x?} {with:x?}");
        (left[2], drive[2]) = (LEFT[2], DRIVE[2]);
        assert_eq!((left, drive), (LEFT, DRIVE), "a number beside the lent ones was written");
        assert_eq!(lent.bytes(), command, "the command was written");
        self.plays += 1;
        self.outcomes[outcome] += 1;
        if outcome == Outcome::Done {
            self.done_by_kind[usize::from(command[3])] += 1;
            self.driven += u64::from(ours.drive > 0);
        }
        outcome
    }
}

// ---- edges

const DURATIONS: [i32; 6] = [1, 2, 19, 20, 599_999, 600_000];

const GAINS: [u32; 12] = [
    0,
    1,
    0x007f_ffff,
    0x0080_0000,
    0x3f7f_ffff,
    0x3f80_0000,
    0x3f80_0001,
    0x8000_0000,
    0x7f80_0000,
    0x7fc0_0000,
    0xff80_0000,
    0xffff_ffff,
];

/// The legal ones, and the nearest on both sides of them.
const FEWER_GAINS: [u32; 8] = *GAINS.first_chunk().expect("eight");

const FAR_TIMES: [i64; 6] = [i64::MIN, -1, 2_147_483_646, 2_147_483_647, 2_147_483_648, i64::MAX];

/// Times at and next to the edges of a duration, and far ones.
fn times(duration: i32) -> impl Iterator<Item = i64> {
    let end = i64::from(duration);
    [0, 1, end - 1, end, end + 1].into_iter().chain(FAR_TIMES)
}

fn pairs(gains: &[u32]) -> impl Iterator<Item = (u32, u32)> {
    gains.iter().flat_map(move |&one| gains.iter().map(move |&other| (one, other)))
}

/// The buzzes and ramps of a duration, with these gains.
fn lasting(duration: i32, gains: &[u32]) -> impl Iterator<Item = [u8; 16]> {
    let buzzes = gains.iter().map(move |&gain| bytes_of(5, BUZZ, duration, gain, 0));
    buzzes.chain(pairs(gains).map(move |(from, to)| bytes_of(64, RAMP, duration, from, to)))
}

/// Plays a command at a time with every calibration of these gains.
fn calibrated(tally: &mut Tally, command: &[u8], elapsed: i64, gains: &[u32]) {
    for (floor, ceiling) in pairs(gains) {
        tally.compare(command, With { elapsed, floor, ceiling });
    }
}

#[test]
fn every_edge_is_played_alike() {
    let mut tally = Tally::default();
    for duration in DURATIONS {
        for command in lasting(duration, &FEWER_GAINS) {
            times(duration).for_each(|elapsed| calibrated(&mut tally, &command, elapsed, &FEWER_GAINS));
        }
    }
    let stop = bytes_of(1, STOP, 0, 0, 0);
    times(0).for_each(|elapsed| calibrated(&mut tally, &stop, elapsed, &FEWER_GAINS));
    println!("{tally:?}");
    assert_eq!(tally.plays, (6 * (8 + 64) + 1) * 11 * 64);
}

#[test]
fn every_gain_at_an_edge_is_played_alike() {
    let mut tally = Tally::default();
    for command in lasting(20, &GAINS) {
        [0, 7].into_iter().for_each(|elapsed| calibrated(&mut tally, &command, elapsed, &GAINS));
    }
    println!("{tally:?}");
    assert_eq!(tally.plays, (12 + 144) * 2 * 144);
}

/// Those that are too short to be proposed are played like all others.
#[test]
fn short_commands_are_played() {
    let mut tally = Tally::default();
    for duration in 1..20 {
        for command in lasting(duration, &[0, 0x3e99_999a, ONE]) {
            for elapsed in 0..=i64::from(duration) {
                let with = With { elapsed, floor: 0x3dcc_cccd, ceiling: 0x3f66_6666 };
                assert_eq!(tally.compare(&command, with), Outcome::Done);
            }
        }
    }
    println!("{tally:?}");
}

/// Every whole number up to 600,000, as the time elapsed and as the duration.
#[test]
fn every_whole_number_is_played_alike() {
    let mut tally = Tally::default();
    for number in 1..=600_000 {
        let with = |elapsed| With { elapsed, floor: 0x3dcc_cccd, ceiling: ONE };
        let longest = bytes_of(3, RAMP, 600_000, 0x3d9c_6ae6, 0x3f71_669c);
        tally.compare(&longest, with(number.into()));
        let so_long = bytes_of(3, RAMP, number, ONE, 0x3c87_6a25);
        tally.compare(&so_long, with(i64::from(number) * 2 / 3));
    }
    println!("{tally:?}");
    assert!(tally.driven >= 1_199_999);
}

#[test]
fn other_lengths_are_refused_alike() {
    let mut tally = Tally::default();
    let twice = [bytes_of(3, BUZZ, 250, ONE, 0), bytes_of(3, BUZZ, 250, ONE, 0)].concat();
    for length in 0..=twice.len() {
        let expected = if length == 16 { Outcome::Done } else { Outcome::NotPlayable };
        let with = With { elapsed: 0, floor: 0, ceiling: ONE };
        assert_eq!(tally.compare(&twice[..length], with), expected, "{length} bytes");
    }
}

#[test]
fn refusals_come_in_order() {
    let mut tally = Tally::default();
    for (motor, playable) in [(64, true), (65, false)] {
        for (floor, calibrated) in [(ONE, true), (ONE + 1, false)] {
            for (elapsed, known) in [(0, true), (-1, false)] {
                let expected = match (playable, calibrated, known) {
                    (false, ..) => Outcome::NotPlayable,
                    (_, false, _) => Outcome::BadCalibration,
                    (.., false) => Outcome::BadElapsed,
                    _ => Outcome::Done,
                };
                let with = With { elapsed, floor, ceiling: ONE };
                assert_eq!(tally.compare(&bytes_of(motor, BUZZ, 250, ONE, 0), with), expected);
            }
        }
    }
}

// ---- at random

/// A gain at an edge, of any bits, of the smallest, near 1.0, or any legal one.
fn gain(rng: &mut Rng) -> u32 {
    match rng.below(12) {
        0 => rng.pick(&GAINS),
        1 => rng.next() as u32,
        2 | 3 => rng.up_to(0x007f_ffff),
        4..8 => {
            let near = 1 << rng.below(30);
            ONE - rng.below(near) as u32
        }
        _ => rng.up_to(ONE),
    }
}

/// A command of one of the three kinds, now and then with something wrong in it, and the duration that it was made with.
fn command(rng: &mut Rng) -> (Vec<u8>, i32) {
    let duration = if rng.one_in(4) { rng.pick(&DURATIONS) } else { 1 + rng.up_to(599_999) as i32 };
    let (kind, duration, a, b) = match rng.below(8) {
        0 => (STOP, 0, 0, 0),
        1..4 => (BUZZ, duration, gain(rng), 0),
        _ => (RAMP, duration, gain(rng), gain(rng)),
    };
    let mut bytes = bytes_of(1 + rng.up_to(63), kind, duration, a, b).to_vec();
    match rng.below(16) {
        0 => damage::command(rng, &mut bytes),
        1 => bytes[rng.below(16) as usize] = rng.next() as u8,
        2 if rng.one_in(4) => bytes.resize(rng.pick(&[0, 1, 15, 17, 32]), 0),
        _ => (),
    }
    (bytes, duration)
}

/// A time within a duration, near its ends, in range, or anywhere.
fn elapsed(rng: &mut Rng, duration: i32) -> i64 {
    match rng.below(16) {
        0..8 => rng.up_to(duration as u32).into(),
        8 => rng.up_to(3).into(),
        9..11 => i64::from(duration) - 1 + i64::from(rng.up_to(2)),
        11..14 => rng.up_to(0x7fff_ffff).into(),
        14 => rng.pick(&FAR_TIMES),
        _ => rng.next() as i64 >> rng.below(64),
    }
}

/// A floor and a ceiling, in their order more often than not.
fn with(rng: &mut Rng, duration: i32) -> With {
    let (one, other) = (gain(rng), gain(rng));
    let (floor, ceiling) = if rng.one_in(8) { (one, other) } else { (one.min(other), one.max(other)) };
    With { elapsed: elapsed(rng, duration), floor, ceiling }
}

#[test]
fn any_play_is_told_alike() {
    let mut rng = Rng::seeded(seed());
    let mut tally = Tally::default();
    for _ in 0..200_000 * rounds() {
        let (command, duration) = command(&mut rng);
        let with = with(&mut rng, duration);
        tally.compare(&command, with);
    }
    println!("{tally:?}");
    let refusals = [Outcome::NotPlayable, Outcome::BadCalibration, Outcome::BadElapsed];
    assert!(refusals.iter().all(|&outcome| tally.outcomes[outcome] >= 5_000), "a refusal was rarely met");
    assert!(tally.done_by_kind.iter().all(|&count| count >= 5_000), "a kind was rarely played");
    assert!(tally.driven >= 30_000, "a motor was rarely driven");
}
