//! States, messages and commands with something wrong in them, more often than not.

use crate::generator::messages::{ROOM, Sample};
use crate::generator::rng::Rng;
use crate::generator::states::at_most;
use image::{
    CANDIDATE, CONFIRMED_AT, FOLLOWER, GATHERED_AT, HEAD_SIZE, LEADER, LENGTH_AT, PLACES, ROLE_AT, ROW_SIZE,
    STATE_SIZE, VOTERS_AT, confirmed_at, lost_parts, number_at, put_number,
};

/// Numbers at and next to every edge that the rules name.
pub const EDGES: [u32; 14] =
    [0, 1, 2, 3, 7, 8, 256, 257, PLACES - 1, PLACES, PLACES + 1, 65_536, u32::MAX - 1, u32::MAX];

/// Where the numbers of a state's head stand: term, ballot, chosen, length, gathered, and the confirmed lengths.
const NUMBERS: [usize; 12] = [0, 4, 8, 12, 16, 28, 32, 36, 40, 44, 48, 52];

/// Changes to try at a row of this term, each a place in the row and what is put there: terms of 0, next to its own, and the largest;
/// motors, kinds, durations and gains at and past their ends.
pub fn row_changes(term: u32) -> [(usize, u32); 16] {
    [
        (0, 0),
        (0, term.wrapping_sub(1)),
        (0, term.wrapping_add(1)),
        (0, u32::MAX),
        (4, 0x0000_0001),
        (4, 0x0041_0001),
        (4, 0x0040_0003),
        (4, 0x0103_0001),
        (8, 0),
        (8, 600_001),
        (8, u32::MAX),
        (12, 0x3f80_0000),
        (12, 0x3f80_0001),
        (12, 0x8000_0000),
        (16, 1),
        (16, 0x8000_0000),
    ]
}

/// The bytes of a state with one thing changed.
pub fn state(rng: &mut Rng, bytes: &[u8]) -> Vec<u8> {
    let mut changed = bytes.to_vec();
    let used = ((number_at(bytes, LENGTH_AT) + number_at(bytes, GATHERED_AT)) as usize) * ROW_SIZE;
    let rest = STATE_SIZE - HEAD_SIZE - used;
    match rng.below(8) {
        0 => changed[rng.below(HEAD_SIZE as u64) as usize] = rng.next() as u8,
        1 => put_number(&mut changed, rng.pick(&NUMBERS), rng.pick(&EDGES)),
        2 => next_number(rng, &mut changed),
        3 => {
            changed[ROLE_AT + rng.below((CONFIRMED_AT - ROLE_AT) as u64) as usize] =
                rng.pick(&[0, 1, 2, 3, 255])
        }
        4 => changed.resize(
            rng.pick(&[
                0,
                1,
                HEAD_SIZE,
                STATE_SIZE - ROW_SIZE,
                STATE_SIZE - 1,
                STATE_SIZE + 1,
                STATE_SIZE + ROW_SIZE,
            ]),
            0,
        ),
        5 if rest > 0 => {
            changed[HEAD_SIZE + used + rng.below(rest as u64) as usize] = 1 << rng.below(8);
        }
        _ => row(rng, &mut changed[HEAD_SIZE..HEAD_SIZE + used]),
    }
    changed
}

/// A number of the head, one more or one less.
fn next_number(rng: &mut Rng, bytes: &mut [u8]) {
    let at = rng.pick(&NUMBERS);
    let number = number_at(bytes, at);
    put_number(bytes, at, rng.pick(&[number.wrapping_sub(1), number.wrapping_add(1)]));
}

/// Whatever a loss of power may leave where the lost parts of a state were: any bytes, and more often such as a hub would believe.
pub fn lost(rng: &mut Rng, bytes: &mut [u8]) {
    for part in lost_parts(bytes) {
        rng.fill(&mut bytes[part]);
    }
    if !rng.one_in(3) {
        let length = number_at(bytes, LENGTH_AT);
        put_number(bytes, GATHERED_AT, at_most(rng, PLACES - length));
        bytes[ROLE_AT] = rng.pick(&[FOLLOWER, CANDIDATE, LEADER]);
        bytes[VOTERS_AT..CONFIRMED_AT].iter_mut().for_each(|mark| *mark = rng.below(2) as u8);
        (1..=7).for_each(|hub| put_number(bytes, confirmed_at(hub), at_most(rng, length)));
    }
}

/// One of these rows changed: its term, its command, or any byte. No rows stay none.
pub fn row(rng: &mut Rng, rows: &mut [u8]) {
    if rows.is_empty() {
        return;
    }
    let start = rng.below((rows.len() / ROW_SIZE) as u64) as usize * ROW_SIZE;
    let row = &mut rows[start..start + ROW_SIZE];
    let term = number_at(row, 0);
    match rng.below(4) {
        0 => put_number(row, 0, rng.pick(&[0, 1, term.wrapping_sub(1), term.wrapping_add(1), u32::MAX])),
        1 => row[rng.below(ROW_SIZE as u64) as usize] = rng.next() as u8,
        _ => command(rng, &mut row[4..]),
    }
}

/// A command's bytes with one of its numbers at, or past, an edge.
pub fn command(rng: &mut Rng, bytes: &mut [u8]) {
    match rng.below(5) {
        0 => bytes[..2].copy_from_slice(&rng.pick(&[0u16, 1, 64, 65, 0x0101]).to_be_bytes()),
        1 => bytes[2..4].copy_from_slice(&rng.pick(&[0u16, 1, 2, 3, 0x0100]).to_be_bytes()),
        2 => put_number(bytes, 4, rng.pick(&[0, 1, 19, 20, 600_000, 600_001, 0x8000_0000, u32::MAX])),
        3 => put_number(bytes, 8, rng.pick(&[0, 1, 0x3f80_0000, 0x3f80_0001, 0x7fc0_0000, 0x8000_0000])),
        _ => put_number(bytes, 12, rng.pick(&[0, 1, 0x3f80_0000, 0x3f80_0001, 0x7fc0_0000, 0x8000_0000])),
    }
}

/// A message with one of its numbers, or its rows, changed. The type stays one of the six.
pub fn sample(rng: &mut Rng, sample: &mut Sample) {
    match rng.below(6) {
        0 => row(rng, &mut sample.rows),
        1 => sample.rows.truncate(sample.rows.len().saturating_sub(ROW_SIZE)),
        2 => sample.fields[0] = 1 + rng.up_to(5),
        3 => sample.fields[2 + rng.below(2) as usize] = rng.up_to(9),
        4 => sample.fields[1 + rng.below(7) as usize] = rng.pick(&EDGES),
        _ => {
            let field = &mut sample.fields[1 + rng.below(7) as usize];
            *field = rng.pick(&[field.wrapping_sub(1), field.wrapping_add(1)]);
        }
    }
}

/// A text with one byte changed, put in or taken out, or cut, or made longer.
pub fn text(rng: &mut Rng, text: &mut Vec<u8>) {
    let at = rng.below(text.len() as u64) as usize;
    let byte = rng.pick(b"0159af:=-\n\r \0\xff");
    match rng.below(6) {
        0 => text[at] = byte,
        1 => text.insert(at, byte),
        2 => drop(text.remove(at)),
        3 => text.truncate(at),
        4 => text.push(byte),
        _ => text.resize(rng.pick(&[0, ROOM - 1, ROOM, ROOM + 1]), b'\n'),
    }
}
