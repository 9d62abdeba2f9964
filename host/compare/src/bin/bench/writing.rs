//! Writing messages.

use crate::cpu::medians;
use crate::table;
use compare::binding::write_message;
use compare::generator::messages::{ROOM, Sample, message_of, rows};
use independent::{LIMIT, message};
use std::hint::black_box;

/// The entries of the appends that are read and written.
pub const COUNTS: [u32; 6] = [0, 1, 16, 100, 256, LIMIT];

pub fn append_of(count: u32) -> String {
    format!("append of {}", table::number(count.into()))
}

/// A leader's append from the start of its log.
pub fn append(count: u32) -> Sample {
    Sample { fields: [4, 5, 1, 2, 0, 0, 0, count], rows: rows(count, 1, 5) }
}

fn write(what: &str, sample: &Sample) {
    let calls = 4_000_000 / (sample.rows.len() as u32 * 3 + 400);
    let message = message_of(&sample.fields).expect("a legal sample");
    let entries = sample.entries();
    let [mut out, mut other] = [vec![0; ROOM], vec![0; ROOM]];
    let ours = || {
        black_box(write_message(black_box(&sample.fields), &sample.rows, &mut out));
    };
    let theirs = || {
        black_box(message::write(black_box(&message), entries.iter().copied(), &mut other).written);
    };
    table::times(what, medians(calls, ours, theirs));
}

pub fn print() {
    table::head("Writing a message", &["", "proved", "plain Rust", "ratio"]);
    for count in COUNTS {
        write(&append_of(count), &append(count));
    }
}
