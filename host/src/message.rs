//! Messages as text: lines `key=value`, each ended by LF, in a fixed order and nothing else.
//! A message's entries stay where they lie: the reader hands back the part of the text that holds them,
//! and the writer takes them from any iterator.

use crate::command::{self, bytes_legal};
use crate::kinds::{Answer, Entry, HUBS, Hub, INPUT_MOST, LIMIT, OUTPUT_LEAST, Outcome, Place, Rising, Term};

/// A message without its entries.
#[derive(Clone, Copy, Debug, PartialEq, Eq)]
pub struct Message {
    /// The writer's term after its step.
    pub term: Term,
    /// The writer.
    pub from: Hub,
    /// The hub meant; 0 for all.
    pub to: Hub,
    /// What the message's type adds.
    pub body: Body,
}

/// A message's type, with the fields that it alone has.
#[derive(Clone, Copy, Debug, PartialEq, Eq)]
pub enum Body {
    /// A candidate asks to lead.
    VoteRequest {
        /// The candidate's length.
        last: Place,
        /// The candidate's ballot.
        ballot: Term,
    },
    /// The asker may lead.
    VoteYes {
        /// The request's last.
        last: Place,
        /// The voter's ballot.
        ballot: Term,
        /// How many entries follow; they stand just after last.
        count: u32,
    },
    /// The asker may not lead, or asks too late.
    VoteNo,
    /// The leader's entries.
    Append(Append),
    /// The log agrees with the leader's up to here.
    AppendYes {
        /// The last place of the append.
        end: Place,
    },
    /// The append did not fit.
    AppendNo {
        /// The writer's length.
        length: Place,
    },
}

/// The fields of an append.
#[derive(Clone, Copy, Debug, PartialEq, Eq)]
pub struct Append {
    /// The place before the first entry.
    pub prev: Place,
    /// The term of the leader's entry there.
    pub prevterm: Term,
    /// The leader's chosen.
    pub chosen: Place,
    /// How many entries follow.
    pub count: u32,
}

impl Append {
    /// The last place that the append speaks of.
    pub(crate) fn end(&self) -> Place {
        self.prev.plus(self.count)
    }
}

impl Body {
    /// The number of entries that belong to the message.
    fn count(&self) -> u32 {
        match *self {
            Body::VoteYes { count, .. } | Body::Append(Append { count, .. }) => count,
            _ => 0,
        }
    }
}

impl Message {
    /// The bounds on the entries' terms; of no use for a type without entries.
    fn entry_terms(&self) -> Rising {
        let (least, most) = match self.body {
            Body::Append(append) => (append.prevterm.max(Term(1)), self.term),
            Body::VoteYes { ballot, .. } => (Term(1), ballot),
            _ => (Term(1), self.term),
        };
        Rising { least, most }
    }
}

// ---- what is legal

fn fields_legal(message: &Message) -> bool {
    let hubs = 1..=HUBS as u32;
    let to_legal = match message.body {
        Body::VoteRequest { .. } => message.to == Hub(0),
        _ => hubs.contains(&message.to.0),
    };
    message.term >= Term(1)
        && hubs.contains(&message.from.0)
        && to_legal
        && body_legal(message.term, &message.body)
}

fn body_legal(term: Term, body: &Body) -> bool {
    match *body {
        Body::VoteRequest { last, ballot } => {
            place_legal(last) && ballot < term && (ballot > Term(0) || last == Place(0))
        }
        Body::VoteYes { last, ballot, count } => {
            span_legal(last, count) && ballot < term && (ballot > Term(0) || count == 0)
        }
        Body::VoteNo => true,
        Body::Append(append) => append_legal(term, &append),
        Body::AppendYes { end } => place_legal(end),
        Body::AppendNo { length } => place_legal(length),
    }
}

fn append_legal(term: Term, append: &Append) -> bool {
    span_legal(append.prev, append.count)
        && (append.prevterm == Term(0)) == (append.prev == Place(0))
        && append.prevterm <= term
        && append.chosen <= append.end()
}

fn place_legal(place: Place) -> bool {
    place <= Place(LIMIT)
}

/// Each is tested by itself first, so that the sum cannot overflow.
fn span_legal(start: Place, count: u32) -> bool {
    place_legal(start) && count <= LIMIT && place_legal(start.plus(count))
}

fn entry_legal(terms: &mut Rising, entry: &Entry) -> bool {
    terms.admits(entry.term) && bytes_legal(&entry.command)
}

fn is_legal<I: Iterator<Item = Entry>>(message: &Message, mut entries: I) -> bool {
    let mut terms = message.entry_terms();
    fields_legal(message)
        && (0..message.body.count())
            .all(|_| entries.next().is_some_and(|entry| entry_legal(&mut terms, &entry)))
        && entries.next().is_none()
}

// ---- reading

/// What reading a text gives.
#[derive(Clone, Copy, Debug, PartialEq, Eq)]
pub struct Reading<'a> {
    /// The message, or why there is none.
    pub message: Result<Message, Outcome>,
    /// The part of the text that holds the entry lines. Without entry lines it is the empty part
    /// at the text's end, and on a refusal the empty part at its start.
    pub entries: &'a [u8],
}

/// Reads a message alone. Where a refused text is wrong, `place` finds.
pub fn read(text: &[u8]) -> Reading<'_> {
    match read_legal(text) {
        Some((message, entries)) => Reading { message: Ok(message), entries },
        None => Reading { message: Err(Outcome::BadMessage), entries: &text[..0] },
    }
}

fn read_legal(text: &[u8]) -> Option<(Message, &[u8])> {
    if text.len() > INPUT_MOST {
        return None;
    }
    let mut cursor = Cursor { rest: text };
    let message = cursor.message()?;
    if !fields_legal(&message) {
        return None;
    }
    let entries = cursor.rest;
    let mut terms = message.entry_terms();
    for _ in 0..message.body.count() {
        let entry = cursor.entry()?;
        if !entry_legal(&mut terms, &entry) {
            return None;
        }
    }
    cursor.rest.is_empty().then_some((message, entries))
}

/// Walks over the entry lines that a reading handed back.
#[derive(Clone, Debug)]
pub struct Entries<'a> {
    cursor: Cursor<'a>,
}

impl<'a> Entries<'a> {
    /// The entries of this part of a text.
    pub fn new(part: &'a [u8]) -> Entries<'a> {
        Entries { cursor: Cursor { rest: part } }
    }
}

impl Iterator for Entries<'_> {
    type Item = Entry;

    fn next(&mut self) -> Option<Entry> {
        self.cursor.entry()
    }
}

#[derive(Clone, Copy)]
enum Kind {
    VoteRequest,
    VoteYes,
    VoteNo,
    Append,
    AppendYes,
    AppendNo,
}

/// The first lines with their LF: without it `append` would be found in `append-yes`.
const TYPE_LINES: [(&[u8], Kind); 6] = [
    (b"type=vote-request\n", Kind::VoteRequest),
    (b"type=vote-yes\n", Kind::VoteYes),
    (b"type=vote-no\n", Kind::VoteNo),
    (b"type=append\n", Kind::Append),
    (b"type=append-yes\n", Kind::AppendYes),
    (b"type=append-no\n", Kind::AppendNo),
];

/// The text not yet read. A method that gives none leaves it anywhere: the whole text is then refused.
#[derive(Clone, Copy, Debug)]
struct Cursor<'a> {
    rest: &'a [u8],
}

impl Cursor<'_> {
    fn message(&mut self) -> Option<Message> {
        let kind = self.kind()?;
        Some(Message {
            term: Term(self.field(b"term=")?),
            from: Hub(self.field(b"from=")?),
            to: Hub(self.field(b"to=")?),
            body: self.body(kind)?,
        })
    }

    fn kind(&mut self) -> Option<Kind> {
        TYPE_LINES.iter().find_map(|&(line, kind)| self.literal(line).map(|()| kind))
    }

    fn body(&mut self, kind: Kind) -> Option<Body> {
        Some(match kind {
            Kind::VoteRequest => Body::VoteRequest {
                last: Place(self.field(b"last=")?),
                ballot: Term(self.field(b"ballot=")?),
            },
            Kind::VoteYes => Body::VoteYes {
                last: Place(self.field(b"last=")?),
                ballot: Term(self.field(b"ballot=")?),
                count: self.field(b"count=")?,
            },
            Kind::VoteNo => Body::VoteNo,
            Kind::Append => Body::Append(Append {
                prev: Place(self.field(b"prev=")?),
                prevterm: Term(self.field(b"prevterm=")?),
                chosen: Place(self.field(b"chosen=")?),
                count: self.field(b"count=")?,
            }),
            Kind::AppendYes => Body::AppendYes { end: Place(self.field(b"end=")?) },
            Kind::AppendNo => Body::AppendNo { length: Place(self.field(b"length=")?) },
        })
    }

    fn entry(&mut self) -> Option<Entry> {
        self.literal(b"entry=")?;
        let term = Term(self.number()?);
        self.literal(b":")?;
        let (digits, rest) = self.rest.split_first_chunk()?;
        self.rest = rest;
        let command = command_of_hex(digits)?;
        self.literal(b"\n")?;
        Some(Entry { term, command })
    }

    fn field(&mut self, key: &[u8]) -> Option<u32> {
        self.literal(key)?;
        let value = self.number()?;
        self.literal(b"\n")?;
        Some(value)
    }

    fn number(&mut self) -> Option<u32> {
        let length = self.rest.iter().take_while(|byte| byte.is_ascii_digit()).count();
        let (digits, rest) = self.rest.split_at(length);
        self.rest = rest;
        number_of_digits(digits)
    }

    fn literal(&mut self, bytes: &[u8]) -> Option<()> {
        self.rest = self.rest.strip_prefix(bytes)?;
        Some(())
    }
}

/// None for no digit, a leading zero, or a number above 32 bits.
fn number_of_digits(digits: &[u8]) -> Option<u32> {
    match digits {
        [] | [b'0', _, ..] => None,
        _ => digits
            .iter()
            .try_fold(0u32, |value, digit| value.checked_mul(10)?.checked_add(u32::from(digit - b'0'))),
    }
}

const NO_DIGIT: u8 = 0xff;

/// The value of each lower-case hex digit.
const HEX_VALUES: [u8; 256] = {
    let mut values = [NO_DIGIT; 256];
    let mut value = 0;
    while value < 16 {
        values[HEX_DIGITS[value] as usize] = value as u8;
        value += 1;
    }
    values
};

fn command_of_hex(digits: &[u8; 2 * command::SIZE]) -> Option<[u8; command::SIZE]> {
    let mut command = [0; command::SIZE];
    // One test at the end instead of one per digit: a value with a bit above the low four is no digit's.
    let mut seen = 0;
    for (byte, pair) in command.iter_mut().zip(digits.as_chunks::<2>().0) {
        let high = HEX_VALUES[usize::from(pair[0])];
        let low = HEX_VALUES[usize::from(pair[1])];
        seen |= high | low;
        *byte = high << 4 | low & 15;
    }
    (seen < 16).then_some(command)
}

// ---- writing

/// Writes a message alone, with its entries, to the start of `out`.
pub fn write<I>(message: &Message, entries: I, out: &mut [u8]) -> Answer
where
    I: Iterator<Item = Entry> + Clone,
{
    if out.len() < OUTPUT_LEAST {
        return Answer::refused(Outcome::ShortOutput);
    }
    if !is_legal(message, entries.clone()) {
        return Answer::refused(Outcome::BadMessage);
    }
    Answer::done(put(message, entries, out))
}

/// Writes a legal message to an output long enough for any, and gives the number of bytes written.
pub(crate) fn put<I>(message: &Message, entries: I, out: &mut [u8]) -> usize
where
    I: Iterator<Item = Entry> + Clone,
{
    debug_assert!(is_legal(message, entries.clone()), "illegal message: {message:?}");
    let mut pen = Pen { out, at: 0 };
    pen.text(type_line(&message.body));
    pen.field(b"term=", message.term.0);
    pen.field(b"from=", message.from.0);
    pen.field(b"to=", message.to.0);
    pen.body(&message.body);
    for entry in entries {
        pen.entry(&entry);
    }
    pen.at
}

fn type_line(body: &Body) -> &'static [u8] {
    let kind = match body {
        Body::VoteRequest { .. } => Kind::VoteRequest,
        Body::VoteYes { .. } => Kind::VoteYes,
        Body::VoteNo => Kind::VoteNo,
        Body::Append(_) => Kind::Append,
        Body::AppendYes { .. } => Kind::AppendYes,
        Body::AppendNo { .. } => Kind::AppendNo,
    };
    TYPE_LINES[kind as usize].0
}

const HEX_DIGITS: &[u8; 16] = b"0123456789abcdef";

/// The output, written up to `at`. Bytes behind `at` are never touched.
struct Pen<'a> {
    out: &'a mut [u8],
    at: usize,
}

impl Pen<'_> {
    fn body(&mut self, body: &Body) {
        match *body {
            Body::VoteRequest { last, ballot } => {
                self.field(b"last=", last.0);
                self.field(b"ballot=", ballot.0);
            }
            Body::VoteYes { last, ballot, count } => {
                self.field(b"last=", last.0);
                self.field(b"ballot=", ballot.0);
                self.field(b"count=", count);
            }
            Body::VoteNo => {}
            Body::Append(append) => {
                self.field(b"prev=", append.prev.0);
                self.field(b"prevterm=", append.prevterm.0);
                self.field(b"chosen=", append.chosen.0);
                self.field(b"count=", append.count);
            }
            Body::AppendYes { end } => self.field(b"end=", end.0),
            Body::AppendNo { length } => self.field(b"length=", length.0),
        }
    }

    fn entry(&mut self, entry: &Entry) {
        self.text(b"entry=");
        self.number(entry.term.0);
        self.text(b":");
        self.text(hex_of_command(&entry.command).as_flattened());
        self.text(b"\n");
    }

    fn field(&mut self, key: &[u8], value: u32) {
        self.text(key);
        self.number(value);
        self.text(b"\n");
    }

    fn number(&mut self, value: u32) {
        // Ten digits hold every 32-bit number; they come up last digit first.
        let mut digits = [0; 10];
        let mut start = digits.len();
        let mut left = value;
        loop {
            start -= 1;
            digits[start] = b'0' + (left % 10) as u8;
            left /= 10;
            if left == 0 {
                break;
            }
        }
        self.text(&digits[start..]);
    }

    fn text(&mut self, bytes: &[u8]) {
        self.out[self.at..][..bytes.len()].copy_from_slice(bytes);
        self.at += bytes.len();
    }
}

fn hex_of_command(command: &[u8; command::SIZE]) -> [[u8; 2]; command::SIZE] {
    command.map(|byte| [HEX_DIGITS[usize::from(byte >> 4)], HEX_DIGITS[usize::from(byte & 15)]])
}
