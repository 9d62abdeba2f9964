//! A message from its text, by docs/RULES.md. The reading is this module's own: what watches a run leans on neither of the programs that
//! take the steps.

use image::{Command, Row};
use independent::{Hub, Term};

/// The types of messages, in the order of rule R28.
#[derive(Clone, Copy, Debug, PartialEq, Eq)]
pub enum Kind {
    VoteRequest,
    VoteYes,
    VoteNo,
    Append,
    AppendYes,
    AppendNo,
}

/// Each type by its name.
pub const KINDS: [(&str, Kind); 6] = [
    ("vote-request", Kind::VoteRequest),
    ("vote-yes", Kind::VoteYes),
    ("vote-no", Kind::VoteNo),
    ("append", Kind::Append),
    ("append-yes", Kind::AppendYes),
    ("append-no", Kind::AppendNo),
];

/// A message: its type, the numbers of its other lines by their keys, and its entries.
#[derive(Clone, Debug, PartialEq, Eq)]
pub struct Message {
    pub kind: Kind,
    numbers: Vec<(String, u32)>,
    pub entries: Vec<Row>,
}

fn entry_of(value: &str) -> Option<Row> {
    let (term, digits) = value.split_once(':')?;
    let byte = |index: usize| u8::from_str_radix(digits.get(2 * index..2 * index + 2)?, 16).ok();
    let mut command = [0; 16];
    for (index, place) in command.iter_mut().enumerate() {
        *place = byte(index)?;
    }
    Some((term.parse().ok()?, command))
}

impl Message {
    /// The message of a text, or none if its lines have no such form. Whether it is legal is for the hubs to say.
    pub fn read(text: &[u8]) -> Option<Message> {
        let mut lines = std::str::from_utf8(text).ok()?.lines();
        let name = lines.next()?.strip_prefix("type=")?;
        let kind = KINDS.iter().find(|known| known.0 == name)?.1;
        let mut message = Message { kind, numbers: Vec::new(), entries: Vec::new() };
        for line in lines {
            match line.split_once('=')? {
                ("entry", value) => message.entries.push(entry_of(value)?),
                (key, value) => message.numbers.push((key.to_string(), value.parse().ok()?)),
            }
        }
        Some(message)
    }

    /// The number of the line with this key; 0 without such a line.
    pub fn number(&self, key: &str) -> u32 {
        self.numbers.iter().find(|line| line.0 == key).map_or(0, |line| line.1)
    }

    /// The same message with another number in a line that it has.
    pub fn with_number(mut self, key: &str, value: u32) -> Message {
        for line in self.numbers.iter_mut().filter(|line| line.0 == key) {
            line.1 = value;
        }
        self
    }

    pub fn term(&self) -> Term {
        Term(self.number("term"))
    }

    pub fn from(&self) -> Hub {
        Hub(self.number("from"))
    }

    pub fn to(&self) -> Hub {
        Hub(self.number("to"))
    }

    /// The name of the message's type.
    pub fn name(&self) -> &'static str {
        KINDS[self.kind as usize].0
    }

    /// The message's text.
    pub fn text(&self) -> String {
        let mut text = format!("type={}\n", self.name());
        for (key, value) in &self.numbers {
            text += &format!("{key}={value}\n");
        }
        for (term, command) in &self.entries {
            text += &format!("entry={term}:{}\n", hex(command));
        }
        text
    }
}

/// A command's digits.
pub fn hex(command: &Command) -> String {
    command.iter().map(|byte| format!("{byte:02x}")).collect()
}
