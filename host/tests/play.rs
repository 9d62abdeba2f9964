//! Playing a command: vectors, the arithmetic in whole numbers beside the machine's own, and what holds of every level and drive.

mod common;
use common::*;
use independent::binary32::{difference, product, quotient, sum, whole};
use independent::play::{Played, level, play};

/// The bits of 1.0.
const ONE: u32 = 0x3f80_0000;

// ---- vectors: levels, and the ways to compute them that are not the rule's

#[derive(Clone, Copy, Debug)]
struct Ramp {
    from: u32,
    to: u32,
    duration: u32,
    elapsed: u32,
}

impl Ramp {
    const fn at(from: u32, to: u32, duration: u32, elapsed: u32) -> Ramp {
        Ramp { from, to, duration, elapsed }
    }

    fn level(self) -> u32 {
        level(self.from, self.to, self.duration, self.elapsed)
    }

    /// From, to, duration and elapsed as the machine has them.
    fn floats(self) -> [f32; 4] {
        [f32::from_bits(self.from), f32::from_bits(self.to), self.duration as f32, self.elapsed as f32]
    }
}

/// A ramp, its level, and the other ways by which it would be another one. The first is the paper's own, on which all ways agree. The last
/// two are half of the smallest gain and a little more: they tell how it is rounded.
const LEVELS: [(Ramp, u32, &[&str]); 6] = [
    (Ramp::at(0, ONE, 1_000, 250), 0x3e80_0000, &[]),
    (Ramp::at(ONE, 0x3c87_6a25, 1_862, 1_784), 0x3d6c_7450, &["fused", "double", "up", "down"]),
    (Ramp::at(0x3da1_f259, 0x3e80_0000, 167_358, 18_856), 0x3dc9_62ff, &["product first", "up"]),
    (
        Ramp::at(0x3e7e_aea0, 0x0c93_cfa0, 124_803, 99_055),
        0x3d52_2c48,
        &["product first", "reciprocal", "fused", "double", "up", "down"],
    ),
    (Ramp::at(0, 1, 600_000, 300_000), 0, &["up"]),
    (Ramp::at(0, 1, 600_000, 300_001), 1, &["down"]),
];

type Way = fn(Ramp) -> f32;

/// The last two round what is computed in double to one side.
const OTHER_WAYS: [(&str, Way); 6] = [
    ("product first", product_first),
    ("reciprocal", by_the_reciprocal),
    ("fused", fused),
    ("double", |ramp| in_double(ramp) as f32),
    ("up", rounded_up),
    ("down", rounded_down),
];

/// The rule's own way, in the machine's floats.
fn by_the_rule(ramp: Ramp) -> f32 {
    let [from, to, duration, elapsed] = ramp.floats();
    from + (to - from) * (elapsed / duration)
}

fn product_first(ramp: Ramp) -> f32 {
    let [from, to, duration, elapsed] = ramp.floats();
    from + (to - from) * elapsed / duration
}

fn by_the_reciprocal(ramp: Ramp) -> f32 {
    let [from, to, duration, elapsed] = ramp.floats();
    from + (to - from) * (elapsed * (1.0 / duration))
}

fn fused(ramp: Ramp) -> f32 {
    let [from, to, duration, elapsed] = ramp.floats();
    (to - from).mul_add(elapsed / duration, from)
}

fn in_double(ramp: Ramp) -> f64 {
    let [from, to, duration, elapsed] = ramp.floats().map(f64::from);
    from + (to - from) * (elapsed / duration)
}

fn rounded_up(ramp: Ramp) -> f32 {
    let (level, near) = (in_double(ramp), in_double(ramp) as f32);
    if f64::from(near) < level { near.next_up() } else { near }
}

fn rounded_down(ramp: Ramp) -> f32 {
    let (level, near) = (in_double(ramp), in_double(ramp) as f32);
    if f64::from(near) > level { near.next_down() } else { near }
}

#[test]
fn levels() {
    for (ramp, level, _) in LEVELS {
        assert_eq!(ramp.level(), level, "{ramp:x?}");
        assert_eq!(by_the_rule(ramp).to_bits(), level, "{ramp:x?}");
    }
}

#[test]
fn levels_tell_other_ways_apart() {
    for (ramp, level, apart) in LEVELS {
        let other = |way: Way| way(ramp).to_bits() != level;
        let found: Vec<_> = OTHER_WAYS.iter().filter(|way| other(way.1)).map(|way| way.0).collect();
        assert_eq!(found, apart, "{ramp:x?}");
    }
    for (way, _) in OTHER_WAYS {
        assert!(LEVELS.iter().any(|vector| vector.2.contains(&way)), "{way} is never told apart");
    }
}

// ---- vectors: plays

const fn told(outcome: u32, left: i64, drive: u32) -> Played {
    Played { outcome, left, drive }
}

const STOP: &str = "00050000000000000000000000000000";

/// A buzz of 250 ms with gain 1.0, the same with gain 0.0, and one of 1 ms.
const BUZZ: &str = "00050001000000fa3f80000000000000";
const STILL: &str = "00050001000000fa0000000000000000";
const SHORT: &str = "00050001000000013f80000000000000";

/// A ramp from 0.0 to 1.0 in 1,000 ms, and one to the smallest gain in 600,000 ms.
const RAMP: &str = "00050002000003e8000000003f800000";
const FAINT: &str = "00050002000927c00000000000000001";

/// Motor 65, kind 3, 600,001 ms, and a gain of -0.
const ILLEGAL: [&str; 4] = [
    "00410001000000fa3f80000000000000",
    "00050003000000000000000000000000",
    "00050001000927c13f80000000000000",
    "00050001000000fa8000000000000000",
];

const HALF: u32 = 0x3f00_0000;
const THIRD: u32 = 0x3eaa_aaab;
const BELOW_ONE: u32 = 0x3f7f_ffff;
const LAST: i64 = 2_147_483_647;

/// A command, elapsed, floor and ceiling, and what is told of them.
const PLAYS: [(&str, i64, u32, u32, Played); 29] = [
    (RAMP, 250, 0, ONE, told(0, 750, 0x3e80_0000)),
    (RAMP, 250, HALF, ONE, told(0, 750, 0x3f20_0000)),
    // At level 0 the floor is not driven.
    (RAMP, 0, HALF, ONE, told(0, 1_000, 0)),
    (STILL, 100, HALF, ONE, told(0, 150, 0)),
    (FAINT, 300_000, HALF, ONE, told(0, 300_000, 0)),
    (FAINT, 300_001, HALF, ONE, told(0, 299_999, HALF)),
    // Up to the duration, at it and past it.
    (BUZZ, 0, 0, ONE, told(0, 250, ONE)),
    (BUZZ, 249, 0, ONE, told(0, 1, ONE)),
    (BUZZ, 250, HALF, ONE, told(0, 0, 0)),
    (BUZZ, 251, HALF, ONE, told(0, -1, 0)),
    (RAMP, 1_000, HALF, ONE, told(0, 0, 0)),
    (FAINT, LAST, HALF, ONE, told(0, -2_146_883_647, 0)),
    (SHORT, 0, 0, THIRD, told(0, 1, THIRD)),
    (SHORT, 1, 0, THIRD, told(0, 0, 0)),
    (STOP, 0, HALF, ONE, told(0, 0, 0)),
    (STOP, LAST, HALF, ONE, told(0, -LAST, 0)),
    // A floor at its ceiling; a drive that rounding lifts above the ceiling; one that each operation rounds down.
    (BUZZ, 0, THIRD, THIRD, told(0, 250, THIRD)),
    (BUZZ, 0, 0, 0, told(0, 250, 0)),
    (BUZZ, 0, ONE, ONE, told(0, 250, ONE)),
    (BUZZ, 0, THIRD, BELOW_ONE, told(0, 250, ONE)),
    ("00050001000000fa3eed688400000000", 0, 0x3def_9374, 0x3f76_5be9, told(0, 250, 0x3f02_4b6e)),
    // 14 before 15 before 16.
    (ILLEGAL[0], 0, 0, ONE, told(14, 0, 0)),
    (ILLEGAL[1], -1, ONE, HALF, told(14, 0, 0)),
    (ILLEGAL[2], LAST + 1, 0, ONE, told(14, 0, 0)),
    (ILLEGAL[3], 0, ONE + 1, ONE, told(14, 0, 0)),
    (BUZZ, -1, ONE, HALF, told(15, 0, 0)),
    (STOP, 0, HALF, HALF - 1, told(15, 0, 0)),
    (BUZZ, -1, 0, ONE, told(16, 0, 0)),
    (STOP, LAST + 1, 0, ONE, told(16, 0, 0)),
];

#[test]
fn plays() {
    for (hex, elapsed, floor, ceiling, expected) in PLAYS {
        let played = play(&bytes(hex), elapsed, floor, ceiling);
        assert_eq!(played, expected, "{hex} at {elapsed} with {floor:08x} to {ceiling:08x}");
    }
}

/// The last two drives of the table that are not refusals: other ways come to other ones.
#[test]
fn drives_tell_other_ways_apart() {
    let fused = |[floor, ceiling, level]: [f32; 3]| (ceiling - floor).mul_add(level, floor).to_bits();
    let double = |numbers: [f32; 3]| {
        let [floor, ceiling, level] = numbers.map(f64::from);
        ((floor + (ceiling - floor) * level) as f32).to_bits()
    };
    let lifted = [THIRD, BELOW_ONE, ONE].map(f32::from_bits);
    assert_eq!([fused(lifted), double(lifted)], [ONE, BELOW_ONE]);
    let lowered = [0x3def_9374, 0x3f76_5be9, 0x3eed_6884].map(f32::from_bits);
    assert_eq!([fused(lowered), double(lowered)], [0x3f02_4b6f; 2]);
}

/// What examples/drive.c prints of its five commands: the gate compares that with the archive for the machine and with the one that ships.
#[test]
fn the_examples_plays() {
    let path = concat!(env!("CARGO_MANIFEST_DIR"), "/../examples/drive.expected");
    let text = std::fs::read_to_string(path).expect("the example's text");
    let (mut command, mut gains, mut plays) = ([0; 16], [0; 2], 0);
    for line in text.lines() {
        let words: Vec<&str> = line.split_whitespace().collect();
        if let &[elapsed, "ms", "left", left, "drive", drive, _] = words.as_slice() {
            let expected = told(0, left.parse().expect("ms"), u32::from_str_radix(drive, 16).expect("bits"));
            assert_eq!(play(&command, elapsed.parse().expect("ms"), gains[0], gains[1]), expected, "{line}");
            plays += 1;
        } else {
            command = bytes(words[0]);
            gains = [1, 2].map(|at| words[at].parse::<f32>().expect("a gain").to_bits());
        }
    }
    assert_eq!(plays, 50);
}

#[test]
fn other_lengths_are_no_command() {
    let twice = [bytes(BUZZ), bytes(BUZZ)].concat();
    for length in 0..=twice.len() {
        let expected = if length == 16 { told(0, 250, ONE) } else { told(14, 0, 0) };
        assert_eq!(play(&twice[..length], 0, 0, ONE), expected, "{length} bytes");
    }
}

/// +0 to 1.0 are legal, and nothing else: no larger number, infinity, NaN, or number with a sign.
#[test]
fn calibrations() {
    let legal = [0, 1, 0x007f_ffff, 0x0080_0000, HALF, BELOW_ONE, ONE];
    let illegal = [ONE + 1, 0x7f7f_ffff, 0x7f80_0000, 0x7fc0_0000, 0x8000_0000, 0xbf00_0000, 0xff80_0000, !0];
    let outcome = |floor, ceiling| play(&bytes(BUZZ), 0, floor, ceiling).outcome;
    for gain in legal {
        legal.iter().for_each(|&other| assert_eq!(outcome(gain, other), if gain <= other { 0 } else { 15 }));
        illegal.iter().for_each(|&other| assert_eq!([outcome(gain, other), outcome(other, gain)], [15, 15]));
    }
    illegal.iter().for_each(|&gain| assert_eq!(outcome(gain, gain), 15));
}

#[test]
fn elapsed_in_range() {
    for (elapsed, expected) in [
        (0, told(0, 250, ONE)),
        (LAST - 1, told(0, 251 - LAST, 0)),
        (LAST, told(0, 250 - LAST, 0)),
        (LAST + 1, told(16, 0, 0)),
        (1 << 32, told(16, 0, 0)),
        (i64::MAX, told(16, 0, 0)),
        (-1, told(16, 0, 0)),
        (i64::MIN, told(16, 0, 0)),
    ] {
        assert_eq!(play(&bytes(BUZZ), elapsed, 0, ONE), expected, "{elapsed}");
    }
}

// ---- the arithmetic beside the machine's

const EDGES: [u32; 12] = [
    0,
    1,
    2,
    0x007f_ffff,
    0x0080_0000,
    0x0080_0001,
    0x3400_0000,
    0x3eff_ffff,
    HALF,
    0x3f7f_fffe,
    BELOW_ONE,
    ONE,
];

impl Dice {
    /// A gain: an edge, one of the smallest, near 1.0, or any.
    fn gain(&mut self) -> u32 {
        match self.below(4) {
            0 => EDGES[self.below(EDGES.len())],
            1 => self.below(0x0080_0000) as u32,
            2 => {
                let near = 1 << self.below(30);
                ONE - self.below(near) as u32
            }
            _ => self.below(ONE as usize + 1) as u32,
        }
    }

    /// A gain that is often next to another one.
    fn gain_beside(&mut self, other: u32) -> u32 {
        let near = other ^ 1 << self.below(24);
        if self.one_in(4) && near <= ONE { near } else { self.gain() }
    }

    fn sign(&mut self) -> u32 {
        (self.below(2) as u32) << 31
    }

    /// The bits of any finite number.
    fn finite(&mut self) -> u32 {
        let bits = self.next() as u32;
        if f32::from_bits(bits).is_finite() { bits } else { self.finite() }
    }
}

#[track_caller]
fn as_the_machine(x: u32, y: u32) {
    let (float_x, float_y) = (f32::from_bits(x), f32::from_bits(y));
    assert_eq!(sum(x, y), (float_x + float_y).to_bits(), "{x:08x} + {y:08x}");
    assert_eq!(difference(x, y), (float_x - float_y).to_bits(), "{x:08x} - {y:08x}");
    assert_eq!(product(x, y), (float_x * float_y).to_bits(), "{x:08x} * {y:08x}");
    if float_y != 0.0 {
        assert_eq!(quotient(x, y), (float_x / float_y).to_bits(), "{x:08x} / {y:08x}");
    }
}

#[test]
fn edges_are_the_machines() {
    for x in EDGES {
        for y in EDGES {
            [0, 1 << 31].into_iter().for_each(|sign| as_the_machine(x, y | sign));
            [0, 1 << 31].into_iter().for_each(|sign| as_the_machine(x | 1 << 31, y | sign));
        }
    }
}

#[test]
fn gains_are_the_machines() {
    let mut dice = Dice(205);
    for _ in 0..3_000_000 {
        let x = dice.gain();
        let y = dice.gain_beside(x);
        as_the_machine(x, y);
        as_the_machine(x, y | dice.sign());
    }
}

#[test]
fn finite_numbers_are_the_machines() {
    let mut dice = Dice(206);
    for _ in 0..2_000_000 {
        let x = dice.finite();
        as_the_machine(x, dice.finite());
        as_the_machine(x, x ^ dice.sign() ^ (1 << dice.below(23)));
    }
}

#[test]
fn wholes_are_the_machines() {
    for number in 0..=600_000 {
        assert_eq!(whole(number), (number as f32).to_bits(), "{number}");
        assert_eq!(f32::from_bits(whole(number)) as u32, number, "{number} is not exact");
    }
    let mut dice = Dice(207);
    for number in (0..1_000_000).map(|_| dice.next() as u32) {
        assert_eq!(whole(number), (number as f32).to_bits(), "{number}");
    }
}

#[track_caller]
fn quotient_as_the_machine(elapsed: u32, duration: u32) {
    let expected = (elapsed as f32 / duration as f32).to_bits();
    assert_eq!(quotient(whole(elapsed), whole(duration)), expected, "{elapsed} / {duration}");
}

#[test]
fn quotients_of_wholes_are_the_machines() {
    (1..=1_000).for_each(|duration| (0..duration).for_each(|part| quotient_as_the_machine(part, duration)));
    (0..600_000).for_each(|elapsed| quotient_as_the_machine(elapsed, 600_000));
    let mut dice = Dice(208);
    for _ in 0..2_000_000 {
        let duration = 1 + dice.below(600_000) as u32;
        quotient_as_the_machine(dice.below(duration as usize) as u32, duration);
    }
}

// ---- what holds of every level and drive

impl Dice {
    fn ramp(&mut self) -> Ramp {
        let from = self.gain();
        let most = [19, 1_000, 600_000][self.below(3)];
        let duration = 1 + self.below(most);
        let elapsed = self.below(duration) as u32;
        Ramp { from, to: self.gain_beside(from), duration: duration as u32, elapsed }
    }

    /// A command of any kind, now and then one that is not legal.
    fn command(&mut self) -> Command {
        let Ramp { from, to, duration, .. } = self.ramp();
        let [kind, duration, a, b] = match self.below(8) {
            0 => [0, 0, 0, 0],
            1..4 => [1, duration, from, 0],
            4..7 => [2, duration, from, to],
            _ => [self.below(4) as u32, duration, from, to ^ self.sign()],
        };
        bytes(&format!("0005{kind:04x}{duration:08x}{a:08x}{b:08x}"))
    }

    /// A time within so many ms, near them, or anywhere.
    fn elapsed(&mut self, duration: i64) -> i64 {
        match self.below(8) {
            0..5 => self.below(duration.max(1) as usize) as i64,
            5 => duration - 1 + self.below(3) as i64,
            6 => self.below(LAST as usize + 2) as i64,
            _ => self.next() as i64 >> self.below(64),
        }
    }

    /// A floor and a ceiling, mostly in their order.
    fn calibration(&mut self) -> (u32, u32) {
        let one = self.gain();
        let other = self.gain_beside(one);
        let sign = if self.one_in(16) { self.sign() } else { 0 };
        if self.one_in(16) { (one, other | sign) } else { (one.min(other), one.max(other) | sign) }
    }
}

/// The rule once more, sentence by sentence in the machine's floats: the level, and what is told.
fn told_by_the_rule(command: &Command, elapsed: i64, floor: u32, ceiling: u32) -> (f32, Played) {
    let refused = |outcome| (0.0, told(outcome, 0, 0));
    let [duration, a, b] = [4, 8, 12].map(|at| number_at(command, at));
    let (low, high) = (f32::from_bits(floor), f32::from_bits(ceiling));
    if !command_legal(command) {
        return refused(14);
    }
    if !gain_legal(floor) || !gain_legal(ceiling) || low > high {
        return refused(15);
    }
    if !(0..=LAST).contains(&elapsed) {
        return refused(16);
    }
    let level = match command[3] {
        _ if elapsed >= duration.into() => 0.0,
        1 => f32::from_bits(a),
        _ => by_the_rule(Ramp::at(a, b, duration, elapsed as u32)).clamp(0.0, 1.0),
    };
    let drive = if level > 0.0 { (low + (high - low) * level).clamp(0.0, 1.0) } else { 0.0 };
    (level, told(0, i64::from(duration) - elapsed, drive.to_bits()))
}

#[test]
fn any_play() {
    let mut dice = Dice(209);
    let mut outcomes = [0; 17];
    let mut driven = 0;
    for _ in 0..1_000_000 {
        let command = dice.command();
        let elapsed = dice.elapsed(number_at(&command, 4).into());
        let (floor, ceiling) = dice.calibration();
        let shown = || format!("{} at {elapsed} with {floor:08x} to {ceiling:08x}", hex(&command));
        let Played { outcome, left, drive } = play(&command, elapsed, floor, ceiling);
        let (level, expected) = told_by_the_rule(&command, elapsed, floor, ceiling);
        assert_eq!(told(outcome, left, drive), expected, "{}", shown());
        assert!(drive <= ONE, "{}", shown());
        assert!(outcome == 0 || (left, drive) == (0, 0), "{}", shown());
        assert!(if level > 0.0 { drive >= floor } else { drive == 0 }, "{}", shown());
        outcomes[outcome as usize] += 1;
        driven += u32::from(level > 0.0);
    }
    println!("{outcomes:?}, {driven} driven");
    assert!([0, 14, 15, 16].iter().all(|&outcome| outcomes[outcome] > 10_000) && driven > 200_000);
}

/// Whether the levels at these times lie between from and to, and never turn back.
fn goes_on(ramp: Ramp, times: impl Iterator<Item = u32>) -> bool {
    let levels = times.map(|elapsed| Ramp { elapsed, ..ramp }.level());
    let mut all: Vec<u32> = [ramp.from].into_iter().chain(levels).chain([ramp.to]).collect();
    if ramp.from > ramp.to {
        all.reverse();
    }
    all.is_sorted()
}

#[test]
fn any_ramp() {
    let mut dice = Dice(210);
    for _ in 0..100_000 {
        let ramp = dice.ramp();
        let mut times: [u32; 8] = std::array::from_fn(|_| dice.below(ramp.duration as usize) as u32);
        times.sort();
        let next = ramp.elapsed..(ramp.elapsed + 4).min(ramp.duration);
        assert!(goes_on(ramp, times.into_iter()) && goes_on(ramp, next), "{ramp:x?} {times:?}");
        assert_eq!(Ramp { elapsed: 0, ..ramp }.level(), ramp.from, "{ramp:x?}");
    }
}

#[test]
fn every_ms() {
    for (from, to) in [(0, ONE), (ONE, 0), (0x3d9c_6ae6, 0x3f71_669c), (0x0080_0000, 1), (HALF, HALF + 3)] {
        assert!(goes_on(Ramp::at(from, to, 600_000, 0), 0..600_000), "{from:08x} to {to:08x}");
    }
}

/// Between gains no level leaves 0 to 1; between 1.0 and 2.0, and between 0.0 and -1.0, each does.
#[test]
fn levels_are_held() {
    for elapsed in 1..1_000 {
        assert_eq!(level(ONE, 0x4000_0000, 1_000, elapsed), ONE, "{elapsed}");
        assert_eq!(level(0, 0xbf80_0000, 1_000, elapsed), 0, "{elapsed}");
    }
}
