//! Where a text that is no legal message goes wrong: the place of the first byte with which it begins none.
//!
//! No rule of messages is written down here. Whether a text begins a legal message is found by going on with it: it is completed in a few
//! ways, and `message::read` judges them. What it accepts shows that the text begins a message; that the few ways are enough is seen so.
//! Once all before a number stands, the numbers that may stand there are an interval. If one of them starts with the digits that have come,
//! so does its lower end, or the digits with zeros behind them are one. The lower end is 0, 1, the term before, or what prev lacks of
//! chosen. A number that has not begun gets such a lower end. In a command the digits have fixed places, and the lower ends are 0 and 1.
//!
//! A text that begins no message begins none however it goes on, so halving finds the place. Entries' lines are tried in an append of
//! their own that has the same bounds on their terms, some at a time and the wrong one alone: to read a long text again and again would
//! take too long.

use crate::kinds::{INPUT_MOST, LIMIT, Outcome};
use crate::message;

/// What a call tells beside its outcome: the first wrong place of a text that was refused as no message, and else 0.
pub fn told(outcome: Outcome, text: &[u8]) -> usize {
    if outcome == Outcome::BadMessage { first_wrong(text) } else { 0 }
}

/// The least place, from 0, up to which the bytes begin no legal message. It is the length of a text that ends too soon, 0 for a legal
/// message, and for a text that is too long the greatest length.
pub fn first_wrong(text: &[u8]) -> usize {
    if text.len() > INPUT_MOST {
        return INPUT_MOST;
    }
    if is_read(text) {
        return 0;
    }
    let head = head_of(text);
    let right = longest(head, head_begins);
    if right < head.len() { right } else { first_wrong_behind(head, text) }
}

/// The same where the head is right. As many entries as it counts may follow, and nothing behind them.
fn first_wrong_behind(head: &[u8], text: &[u8]) -> usize {
    let most = number(head, if head.starts_with(b"type=append\n") { "term=" } else { "ballot=" });
    let mut terms = Terms { least: least_term(head), most };
    let (mut at, mut left, mut bunch) = (head.len(), number(head, "count="), BUNCH);
    while left > 0 {
        bunch = bunch.min(left);
        let lines = first_lines(&text[at..], bunch);
        if terms.admit(lines, bunch) {
            at += lines.len();
            left -= bunch;
            terms.least = number(last_line(lines), ENTRY);
        } else if bunch > 1 {
            bunch /= 2;
        } else {
            return at + longest(lines, |part| terms.entry_begins(part));
        }
    }
    at
}

fn is_read(text: &[u8]) -> bool {
    message::read(text).message.is_ok()
}

/// How many bytes of a text begin what is asked for: those up to some length do, and none beyond.
fn longest(text: &[u8], begins: impl Fn(&[u8]) -> bool) -> usize {
    if begins(text) {
        return text.len();
    }
    let (mut right, mut wrong) = (0, text.len());
    while right + 1 < wrong {
        let middle = (right + wrong) / 2;
        if begins(&text[..middle]) {
            right = middle;
        } else {
            wrong = middle;
        }
    }
    right
}

// ---- lines

const LF: u8 = b'\n';

/// So many lines of a text with their ends, or all that it has.
fn first_lines(text: &[u8], count: u32) -> &[u8] {
    let lines = text.split_inclusive(|&byte| byte == LF).take(count as usize);
    &text[..lines.map(<[u8]>::len).sum()]
}

fn last_line(text: &[u8]) -> &[u8] {
    text.split_inclusive(|&byte| byte == LF).next_back().unwrap_or_default()
}

/// The number in the line with this key; 0 if there is no such line, or no number that is read.
fn number(text: &[u8], key: &str) -> u32 {
    let value = |line| <[u8]>::strip_prefix(line, key.as_bytes());
    let digits = text.split(|&byte| byte == LF).find_map(value).unwrap_or_default();
    let digits = digits.iter().take_while(|byte| byte.is_ascii_digit());
    digits.fold(0, |value: u32, digit| value.saturating_mul(10).saturating_add(u32::from(digit - b'0')))
}

/// The most digits of a number.
const DIGITS: usize = 10;

/// A key with a number, of which this part has come, in the ways to complete it: with zeros, or to one of the numbers worth trying.
fn completed<'a>(part: &'a [u8], key: &'a str, worth: &'a [u32]) -> impl Iterator<Item = Vec<u8>> + 'a {
    let digits = part.len().saturating_sub(key.len());
    let most = if digits == 0 { 0 } else { DIGITS.saturating_sub(digits) + 1 };
    let with_zeros = (0..most).map(move |zeros| [part, &[b'0'; DIGITS][..zeros]].concat());
    let numbers = worth.iter().map(move |number| format!("{key}{number}").into_bytes());
    with_zeros.chain(numbers.filter(move |line| line.starts_with(part)))
}

// ---- the head: all lines before the entries

/// Each type's first line, and the keys of the head's other lines.
const TYPES: [(&str, &[&str]); 6] = [
    ("type=vote-request\n", &["term=", "from=", "to=", "last=", "ballot="]),
    ("type=vote-yes\n", &["term=", "from=", "to=", "last=", "ballot=", "count="]),
    ("type=vote-no\n", &["term=", "from=", "to="]),
    ("type=append\n", &["term=", "from=", "to=", "prev=", "prevterm=", "chosen=", "count="]),
    ("type=append-yes\n", &["term=", "from=", "to=", "end="]),
    ("type=append-no\n", &["term=", "from=", "to=", "length="]),
];

/// The head of a text, as far as it goes; of a text of no type, its first line.
fn head_of(text: &[u8]) -> &[u8] {
    let kind = TYPES.iter().find(|kind| text.starts_with(kind.0.as_bytes()));
    first_lines(text, 1 + kind.map_or(0, |kind| kind.1.len() as u32))
}

/// Whether a legal message starts with this part of a head.
fn head_begins(part: &[u8]) -> bool {
    TYPES.iter().any(|&(first, keys)| match part.strip_prefix(first.as_bytes()) {
        Some(lines) => lines_begin(first, lines, keys),
        None => first.as_bytes().starts_with(part) && goes_on(first.as_bytes().to_vec(), keys),
    })
}

/// The same of what has come behind the first line.
fn lines_begin(first: &str, lines: &[u8], keys: &[&str]) -> bool {
    let whole = lines.iter().rposition(|&byte| byte == LF).map_or(0, |last| last + 1);
    let (whole, part) = lines.split_at(whole);
    let head = [first.as_bytes(), whole].concat();
    let come = whole.iter().filter(|&&byte| byte == LF).count();
    let Some((key, rest)) = keys[come..].split_first() else { return goes_on(head, &[]) };
    completed(part, key, &[0, 1, lacking(&head)])
        .any(|line| goes_on([&head[..], &line, &[LF]].concat(), rest))
}

/// Whether a legal message starts with these lines. They are completed by one with each of these keys, and by as many entries as they count.
fn goes_on(mut text: Vec<u8>, keys: &[&str]) -> bool {
    let Some((key, rest)) = keys.split_first() else {
        let count = number(&text, "count=").min(LIMIT) as usize;
        text.extend_from_slice(format!("{ENTRY}{}:{STOP}\n", least_term(&text)).repeat(count).as_bytes());
        return is_read(&text);
    };
    let mut numbers = match *key {
        "term=" | "from=" => 1..=1,
        "to=" | "ballot=" | "prevterm=" => 0..=1,
        "count=" => lacking(&text)..=lacking(&text),
        _ => 0..=0,
    };
    numbers.any(|number| goes_on([&text[..], format!("{key}{number}\n").as_bytes()].concat(), rest))
}

/// How many entries there have to be behind prev, or chosen would be beyond them.
fn lacking(head: &[u8]) -> u32 {
    number(head, "chosen=").saturating_sub(number(head, "prev="))
}

/// The least term that the first entry may have.
fn least_term(head: &[u8]) -> u32 {
    number(head, "prevterm=").max(1)
}

// ---- an entry

const ENTRY: &str = "entry=";

/// The digits of a stop.
const STOP: &str = "00010000000000000000000000000000";

/// The last digits of a motor, a kind and a duration. The numbers behind them may always be 0.
const ENDS: [usize; 3] = [3, 7, 15];

/// How many entries are looked at together, as long as they are right.
const BUNCH: u32 = 64;

/// The bounds on the term of the next entry.
struct Terms {
    least: u32,
    most: u32,
}

impl Terms {
    /// Whether these are so many entries' lines that may come next: an append of the greatest term may send them behind an entry of the
    /// least.
    fn admit(&self, lines: &[u8], count: u32) -> bool {
        let Terms { least, most } = self;
        let numbers = format!("prev=1\nprevterm={least}\nchosen=0\ncount={count}\n");
        let head = format!("type=append\nterm={most}\nfrom=1\nto=1\n{numbers}");
        is_read(&[head.as_bytes(), lines].concat())
    }

    /// Whether a line that may come next starts with this part.
    fn entry_begins(&self, part: &[u8]) -> bool {
        let Some(colon) = part.iter().position(|&byte| byte == b':') else {
            let ending = format!(":{STOP}\n");
            return completed(part, ENTRY, &[self.least])
                .any(|term| self.admit(&[&term, ending.as_bytes()].concat(), 1));
        };
        let (term, digits) = part.split_at(colon + 1);
        if digits.len() > STOP.len() {
            return self.admit(part, 1);
        }
        (0..1 << ENDS.len()).any(|ones| self.admit(&[term, &command(digits, ones), &[LF]].concat(), 1))
    }
}

/// A command's digits, of which some have come, completed by zeros; but at the ends that are marked by a bit there is a 1.
fn command(come: &[u8], ones: u32) -> Vec<u8> {
    let mut digits = come.to_vec();
    digits.resize(STOP.len(), b'0');
    for (bit, end) in ENDS.into_iter().enumerate() {
        if end >= come.len() && ones >> bit & 1 == 1 {
            digits[end] = b'1';
        }
    }
    digits
}
