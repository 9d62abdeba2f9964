//! Reading messages, long and short, good and damaged. Sixteen texts of a shape take turns, with random commands: one text read again and
//! again flatters branches, which then are all foretold.

use crate::cpu::{calls_of, medians};
use crate::table;
use compare::binding::read_packed;
use compare::generator::messages::{FIELDS, ROOM, Sample};
use compare::generator::rng::{Rng, seed};
use compare::generator::states::rising;
use image::bytes_of_rows;
use independent::{LIMIT, message};
use std::hint::black_box;

/// How many texts take turns: many commands, in few enough bytes to stay in the cache.
const TEXTS: usize = 16;

const TERM: u32 = 5;

/// A leader's append from the start of its log, with commands of random kinds.
fn append(rng: &mut Rng, count: u32) -> Sample {
    let rows = bytes_of_rows(&rising(rng, count, 1, TERM));
    Sample { fields: [4, TERM, 1, 2, 0, 0, 0, count], rows }
}

/// A message of a type that has one number of its own, or none.
fn short(kind: u32, own: u32) -> Sample {
    Sample { fields: [kind, TERM, 2, 1, own, 0, 0, 0], rows: Vec::new() }
}

type Maker = fn(&mut Rng) -> Sample;

/// The messages that are read.
const SHAPES: [(&str, Maker); 7] = [
    ("vote-no", |_| short(3, 0)),
    ("append-yes", |rng| short(5, rng.up_to(LIMIT))),
    ("append of 0", |rng| append(rng, 0)),
    ("append of 1", |rng| append(rng, 1)),
    ("append of 16", |rng| append(rng, 16)),
    ("append of 256", |rng| append(rng, 256)),
    ("append of 1,024", |rng| append(rng, LIMIT)),
];

/// What no text has at any place.
const WRONG: u8 = b'G';

type Harm = fn(&mut Rng, &mut Vec<u8>);

/// What happens to a text before it is read.
const HARMS: [(&str, Harm); 6] = [
    ("good", |_, _| {}),
    ("damaged in its first line", |rng, text| {
        let line = text.iter().position(|&byte| byte == b'\n').expect("a line");
        text[rng.below(line as u64 + 1) as usize] = WRONG;
    }),
    ("in the middle", |_, text| {
        let middle = text.len() / 2;
        text[middle] = WRONG;
    }),
    ("at its last byte", |_, text| *text.last_mut().expect("a byte") = WRONG),
    ("cut", |rng, text| text.truncate(rng.below(text.len() as u64) as usize)),
    ("one byte too long", |_, text| text.resize(ROOM + 1, b'\n')),
];

/// A reading by the proved library, into numbers that are lent again at each.
fn ours() -> impl FnMut(&[u8]) {
    let mut numbers = [0; FIELDS];
    move |text| {
        black_box(read_packed(text, &mut numbers));
    }
}

/// A reading by the independent program.
fn theirs(text: &[u8]) {
    black_box(message::read(text).message.is_ok());
}

/// Reads the next of the texts at each call.
fn reads(texts: &[Vec<u8>], mut read: impl FnMut(&[u8])) -> impl FnMut() {
    let mut turns = texts.iter().cycle();
    move || read(black_box(turns.next().expect("a turn")))
}

fn measure(texts: &[Vec<u8>]) -> (f64, f64) {
    let calls = calls_of(reads(texts, ours())).max(TEXTS as u32);
    medians(calls, reads(texts, ours()), reads(texts, theirs))
}

fn texts(rng: &mut Rng, make: Maker, harm: Harm) -> Vec<Vec<u8>> {
    let mut one = || {
        let mut text = make(rng).text();
        harm(rng, &mut text);
        text
    };
    (0..TEXTS).map(|_| one()).collect()
}

pub fn print() {
    let columns = HARMS.map(|(harm, _)| harm.to_string());
    table::head("Reading a message", &table::wide("", &columns));
    let rng = &mut Rng::quiet(seed());
    for (what, make) in SHAPES {
        let cells = HARMS.map(|(_, harm)| table::cell(measure(&texts(rng, make, harm))));
        table::row(&table::wide(what, &cells));
    }
}

/// Reads each text once: `host/counted` counts the instructions between the beginning and the end of this function.
#[unsafe(no_mangle)]
#[inline(never)]
fn bench_counted(texts: &[Vec<u8>], read: &mut dyn FnMut(&[u8])) {
    texts.iter().for_each(|text| read(black_box(text)));
}

/// Does what the table times, each reading once by both programs, and names its cells.
pub fn count() {
    let rng = &mut Rng::quiet(seed());
    for (what, make) in SHAPES {
        for (harm, damage) in HARMS {
            let texts = texts(rng, make, damage);
            println!("{what}|{harm}|{TEXTS}");
            bench_counted(&texts, &mut ours());
            bench_counted(&texts, &mut theirs);
        }
    }
}
