//! Messages to compare with: every legal shape, and random ones, as the numbers and rows that the library takes.

use crate::generator::rng::Rng;
use image::ROW_SIZE;
use independent::message::{self, Append, Body, Message};
use independent::{Entry, Hub, LIMIT, Outcome, Place, Term};

/// How many numbers a message has: type, term, from, to, up to three of its own, and the count of its entries.
pub const FIELDS: usize = 8;

/// The least size of an output, and the greatest of a text.
pub const ROOM: usize = 65_536;

const LARGEST: u32 = u32::MAX;

/// A message by its numbers and the rows of its entries.
#[derive(Clone, Debug)]
pub struct Sample {
    pub fields: [u32; FIELDS],
    pub rows: Vec<u8>,
}

/// The independent program's message of these numbers; none where there is no such type, or a number stands behind the type's own.
pub fn message_of(fields: &[u32; FIELDS]) -> Option<Message> {
    let [kind, term, from, to, a, b, c, d] = *fields;
    let body = match (kind, a, b, c, d) {
        (1, last, ballot, 0, 0) => Body::VoteRequest { last: Place(last), ballot: Term(ballot) },
        (2, last, ballot, 0, count) => Body::VoteYes { last: Place(last), ballot: Term(ballot), count },
        (3, 0, 0, 0, 0) => Body::VoteNo,
        (4, prev, prevterm, chosen, count) => {
            Body::Append(Append { prev: Place(prev), prevterm: Term(prevterm), chosen: Place(chosen), count })
        }
        (5, end, 0, 0, 0) => Body::AppendYes { end: Place(end) },
        (6, length, 0, 0, 0) => Body::AppendNo { length: Place(length) },
        _ => return None,
    };
    Some(Message { term: Term(term), from: Hub(from), to: Hub(to), body })
}

/// The numbers of the independent program's message.
pub fn fields_of(message: &Message) -> [u32; FIELDS] {
    let (kind, own) = match message.body {
        Body::VoteRequest { last, ballot } => (1, [last.0, ballot.0, 0, 0]),
        Body::VoteYes { last, ballot, count } => (2, [last.0, ballot.0, 0, count]),
        Body::VoteNo => (3, [0; 4]),
        Body::Append(append) => (4, [append.prev.0, append.prevterm.0, append.chosen.0, append.count]),
        Body::AppendYes { end } => (5, [end.0, 0, 0, 0]),
        Body::AppendNo { length } => (6, [length.0, 0, 0, 0]),
    };
    [kind, message.term.0, message.from.0, message.to.0, own[0], own[1], own[2], own[3]]
}

/// Each type's name, and the keys of its own lines with the places of their numbers.
const TYPES: [(&str, &[(&str, usize)]); 6] = [
    ("vote-request", &[("last", 4), ("ballot", 5)]),
    ("vote-yes", &[("last", 4), ("ballot", 5), ("count", 7)]),
    ("vote-no", &[]),
    ("append", &[("prev", 4), ("prevterm", 5), ("chosen", 6), ("count", 7)]),
    ("append-yes", &[("end", 4)]),
    ("append-no", &[("length", 4)]),
];

impl Sample {
    /// The lines of these numbers and rows, whether they make a legal message or not; the type has to be one of the six.
    pub fn lines(&self) -> Vec<u8> {
        let [kind, term, from, to, ..] = self.fields;
        let (name, own) = TYPES[kind as usize - 1];
        let mut text = format!("type={name}\nterm={term}\nfrom={from}\nto={to}\n");
        for (key, at) in own {
            text += &format!("{key}={}\n", self.fields[*at]);
        }
        for entry in self.entries() {
            let digits: String = entry.command.iter().map(|byte| format!("{byte:02x}")).collect();
            text += &format!("entry={}:{digits}\n", entry.term.0);
        }
        text.into_bytes()
    }

    /// The entries of the rows.
    pub fn entries(&self) -> Vec<Entry> {
        let entry = |row: &[u8]| Entry {
            term: Term(u32::from_be_bytes(row[..4].try_into().expect("four bytes"))),
            command: row[4..ROW_SIZE].try_into().expect("sixteen bytes"),
        };
        self.rows.chunks_exact(ROW_SIZE).map(entry).collect()
    }

    /// The text that the independent program writes; the sample has to be legal.
    pub fn text(&self) -> Vec<u8> {
        let mut out = vec![0; ROOM];
        let message = message_of(&self.fields).expect("a legal sample");
        let answer = message::write(&message, self.entries().into_iter(), &mut out);
        assert_eq!(answer.outcome, Outcome::Done, "a legal sample: {:?}", self.fields);
        out.truncate(answer.written);
        out
    }
}

/// A command of each kind, at its edges.
const COMMANDS: [[u8; 16]; 5] = [
    [0, 3, 0, 1, 0, 0, 0, 250, 0x3f, 0, 0, 0, 0, 0, 0, 0],
    [0, 1, 0, 0, 0, 0, 0, 0, 0, 0, 0, 0, 0, 0, 0, 0],
    [0, 64, 0, 1, 0, 0, 0, 1, 0x3f, 0x80, 0, 0, 0, 0, 0, 0],
    [0, 9, 0, 2, 0, 9, 0x27, 0xc0, 0, 0, 0, 0, 0x3f, 0x80, 0, 0],
    [0, 17, 0, 2, 0, 0, 0xab, 0xcd, 0x3e, 0xde, 0xad, 0xbe, 0x3a, 0xbc, 0xde, 0xf1],
];

/// So many rows, of terms that rise from the first to the last.
pub fn rows(count: u32, first: u32, last: u32) -> Vec<u8> {
    let mut bytes = Vec::with_capacity(count as usize * ROW_SIZE);
    for index in 0..count {
        let span = u64::from(last - first);
        let term = first + (span * u64::from(index) / u64::from(count.max(2) - 1)) as u32;
        bytes.extend_from_slice(&term.to_be_bytes());
        bytes.extend_from_slice(&COMMANDS[index as usize % COMMANDS.len()]);
    }
    bytes
}

fn request(term: u32, last: u32, ballot: u32) -> Sample {
    Sample { fields: [1, term, 1, 0, last, ballot, 0, 0], rows: Vec::new() }
}

fn yes(term: u32, last: u32, ballot: u32, count: u32) -> Sample {
    Sample { fields: [2, term, 7, 1, last, ballot, 0, count], rows: rows(count, 1, ballot.max(1)) }
}

fn append(term: u32, prev: u32, prevterm: u32, chosen: u32, count: u32) -> Sample {
    Sample {
        fields: [4, term, 2, 7, prev, prevterm, chosen, count],
        rows: rows(count, prevterm.max(1), term),
    }
}

fn short(kind: u32, term: u32, own: u32) -> Sample {
    Sample { fields: [kind, term, 3, 2, own, 0, 0, 0], rows: Vec::new() }
}

/// Every legal shape: each type, each number at its smallest and largest, counts of 0, 1, 2, 256, and as many as fit and one less.
pub fn shapes() -> Vec<Sample> {
    let mut all = Vec::new();
    for term in [1, 2, 10, 99, 1_000_000_000, LARGEST] {
        all.push(request(term, 0, 0));
        all.extend([
            short(3, term, 0),
            short(5, term, 0),
            short(5, term, LIMIT),
            short(6, term, 0),
            short(6, term, LIMIT),
        ]);
        all.extend([yes(term, 0, 0, 0), yes(term, LIMIT, term - 1, 0), append(term, 0, 0, 0, 0)]);
        all.extend([append(term, LIMIT, term, LIMIT, 0), append(term, 1, 1, 0, 1)]);
        if term > 1 {
            all.extend([request(term, LIMIT, term - 1), request(term, 1, 1)]);
        }
        for count in [1, 2, 256, LIMIT - 1, LIMIT] {
            all.push(append(term, 0, 0, 0, count));
            all.push(append(term, LIMIT - count, if count == LIMIT { 0 } else { 1 }, LIMIT, count));
            if term > 1 {
                all.extend([yes(term, 0, term - 1, count), yes(term, LIMIT - count, 1, count)]);
            }
        }
    }
    all
}

/// A random legal message.
pub fn random(rng: &mut Rng) -> Sample {
    let span = rng_span(rng);
    let term = 2 + rng.below(span) as u32;
    let ballot = 1 + rng.below(u64::from(term - 1)) as u32;
    let start = rng.up_to(LIMIT);
    let count = rng.up_to((LIMIT - start).min(8));
    let mut sample = match rng.below(6) {
        0 => request(term, start, ballot),
        1 => yes(term, start, ballot, count),
        2 => short(3, term, 0),
        3 => append(
            term,
            start,
            if start == 0 { 0 } else { ballot },
            rng.below(u64::from(start + count + 1)) as u32,
            count,
        ),
        4 => short(5, term, start),
        _ => short(6, term, start),
    };
    sample.fields[2] = 1 + rng.below(7) as u32;
    if sample.fields[0] != 1 {
        sample.fields[3] = 1 + rng.below(7) as u32;
    }
    sample
}

/// Terms of few and of many digits alike.
fn rng_span(rng: &mut Rng) -> u64 {
    rng.pick(&[1, 9, 1_000, u64::from(LARGEST) - 2])
}
