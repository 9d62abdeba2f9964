//! Scenarios as text: a script says which hub does what, and playing it gives a text with each step's outcome, message and resulting
//! state, and at the end what every hub reports. MultiPaxos is kept beside them as it is beside random runs.
//!
//! `cargo run --release --offline -p compare --bin scenario -- FILE` prints the text of a script. A script has one thing on a line:
//!
//! ```text
//! # a comment
//! hubs 3                  the group's size, first of all
//! 1 starts: ask           hub 1 starts; its message is called `ask` (a message without a name is lost)
//! 2 hears ask: yes        hub 2 receives `ask`, any number of times; what it answers is called `yes`
//! 1 proposes c3           a command: its letter is the motor (c is 3), its number the tenths of a second of a buzz with gain 0.5
//! 1 sends 2 from 0: all   hub 1 sends to hub 2 from prev 0
//! 2 restarts              from its stored bytes
//! 2 restarts over ff      the same, with ff in every byte of what is lost
//! text forged             the lines `| key=value` that follow are a message that no hub has written
//! all cut to 40: torn     `torn` is what is left of `all` when 40 bytes have come through
//! all with x at 9: wrong  `wrong` is `all` with an x for its byte 9, counted from 0
//! ```

use crate::binding::call::{Call, PROPOSE, RECEIVE, RESTART, SEND, START, Step};
use crate::binding::{Answer, read_message};
use crate::checker::message::hex;
use crate::checker::{Checker, Deed};
use crate::generator::messages::{FIELDS, ROOM};
use image::{CANDIDATE, Command, Image, LEADER, Row, STATE_SIZE, lost_parts, number_at, put_number};
use independent::{Hub, Outcome};
use std::collections::BTreeMap;
use std::fmt::Write;

/// The text of a script, or what is wrong with the script or with the hubs, and in which line.
pub fn play(script: &str, step: Step) -> Result<String, String> {
    let mut stage = Stage::new(step);
    for (number, line) in (1..).zip(script.lines()) {
        let line = line.trim();
        if !line.is_empty() && !line.starts_with('#') {
            stage.line(line).map_err(|wrong| format!("line {number}, {line}: {wrong}"))?;
        }
    }
    Ok(stage.ended())
}

/// What a script's line makes a hub do.
struct Order {
    hub: Hub,
    event: u32,
    a: u32,
    b: u32,
    input: Vec<u8>,
    origin: Origin,
    /// What every byte of the lost parts holds before the step, if it is not what was stored.
    lost: Option<u8>,
}

/// Where a text comes from.
#[derive(Clone, Copy, PartialEq)]
enum Origin {
    /// A hub wrote it.
    Written,
    /// Nobody did, and it may read as a message all the same.
    Forged,
    /// A hub wrote it, and it was damaged until it reads as no message.
    Damaged,
}

struct Stage {
    step: Step,
    states: Vec<Vec<u8>>,
    texts: BTreeMap<String, (Origin, Vec<u8>)>,
    /// The text that `|` lines go on with.
    open: String,
    checker: Checker,
    told: String,
}

fn number(word: &str) -> Result<u32, String> {
    word.parse().map_err(|_| format!("{word} is no number"))
}

impl Stage {
    fn new(step: Step) -> Stage {
        Stage {
            step,
            states: Vec::new(),
            texts: BTreeMap::new(),
            open: String::new(),
            checker: Checker::new(0),
            told: String::new(),
        }
    }

    fn line(&mut self, line: &str) -> Result<(), String> {
        if let Some(text) = line.strip_prefix("| ") {
            let open = self.texts.get_mut(&self.open).ok_or("no text is open")?;
            open.1.extend_from_slice(format!("{text}\n").as_bytes());
            return Ok(());
        }
        let (order, name) = line.split_once(": ").map_or((line, None), |(order, name)| (order, Some(name)));
        match order.split(' ').collect::<Vec<_>>()[..] {
            ["hubs", size] => self.gather(number(size)?),
            ["text", name] => self.forge(name),
            [of, "cut", "to", size] => self.damage(of, name, |text| cut(text, size)),
            [of, "with", byte, "at", at] => self.damage(of, name, |text| change(text, byte, at)),
            [hub, ref rest @ ..] => {
                let order = self.order(number(hub)?, rest)?;
                let _ = writeln!(self.told, "{line}");
                self.perform(&order, name)
            }
            [] => Err("nothing to do".to_string()),
        }
    }

    fn gather(&mut self, size: u32) -> Result<(), String> {
        self.states = vec![vec![0; STATE_SIZE]; size as usize];
        self.checker = Checker::new(size);
        Ok(())
    }

    fn forge(&mut self, name: &str) -> Result<(), String> {
        self.open = name.to_string();
        self.texts.insert(name.to_string(), (Origin::Forged, Vec::new()));
        Ok(())
    }

    fn text(&self, name: &str) -> Result<&(Origin, Vec<u8>), String> {
        self.texts.get(name).ok_or(format!("no message is called {name}"))
    }

    /// Takes what became of a text on its way. One that still reads as a message is not damaged, but another message.
    fn damage(
        &mut self,
        of: &str,
        name: Option<&str>,
        damage: impl Fn(&mut Vec<u8>) -> Result<(), String>,
    ) -> Result<(), String> {
        let mut text = self.text(of)?.1.clone();
        damage(&mut text)?;
        if read_message(&text, &mut [0; FIELDS]).outcome == Outcome::Done {
            return Err("it still reads as a message".to_string());
        }
        let name = name.ok_or("a damaged text has a name")?;
        self.texts.insert(name.to_string(), (Origin::Damaged, text));
        Ok(())
    }

    fn order(&self, hub: u32, words: &[&str]) -> Result<Order, String> {
        if hub == 0 || hub as usize > self.states.len() {
            return Err(format!("there is no hub {hub}"));
        }
        let (hub, origin) = (Hub(hub), Origin::Written);
        let plain = Order { hub, event: 0, a: 0, b: 0, input: Vec::new(), origin, lost: None };
        match *words {
            ["starts"] => Ok(Order { event: START, ..plain }),
            ["restarts"] => Ok(Order { event: RESTART, ..plain }),
            ["restarts", "over", byte] => {
                let lost = u8::from_str_radix(byte, 16).map_err(|_| format!("{byte} is no byte"))?;
                Ok(Order { event: RESTART, lost: Some(lost), ..plain })
            }
            ["proposes", name] => Ok(Order { event: PROPOSE, input: command(name)?.to_vec(), ..plain }),
            ["sends", peer, "from", prev] => {
                Ok(Order { event: SEND, a: number(peer)?, b: number(prev)?, ..plain })
            }
            ["hears", name] => {
                let (origin, input) = self.text(name)?.clone();
                Ok(Order { event: RECEIVE, input, origin, ..plain })
            }
            _ => Err("no such order".to_string()),
        }
    }

    fn perform(&mut self, order: &Order, name: Option<&str>) -> Result<(), String> {
        let &Order { hub, event, a, b, ref input, origin, lost } = order;
        let n = self.states.len() as u32;
        let stored = &mut self.states[hub.0 as usize - 1];
        let lent = lost.map_or(stored.clone(), |byte| lost_filled(stored, byte));
        let (mut left, mut out) = (lent.clone(), vec![0; ROOM]);
        let Answer { outcome, place, second } =
            (self.step)(&mut Call { n, own: hub, event, a, b, state: &mut left, input, out: &mut out });
        out.truncate(second as usize);
        if outcome == Outcome::Done {
            stored.clone_from(&left);
        }
        // No machine stands behind a text that nobody wrote: only a refusal can be looked at, and it leaves the state.
        if origin != Origin::Forged || outcome == Outcome::Done {
            let (damaged, lent, left, text) = (origin == Origin::Damaged, &lent[..], &left[..], &out[..]);
            let deed = Deed { hub, event, input, damaged, outcome, place, lent, left, stored, text };
            self.checker.see(&deed).map_err(|reason| format!("{reason:?}"))?;
        }
        self.tell(hub, outcome, &out);
        match (name, out.is_empty()) {
            (Some(_), true) => Err("no message was written".to_string()),
            (Some(name), false) => {
                self.texts.insert(name.to_string(), (Origin::Written, out));
                Ok(())
            }
            (None, _) => Ok(()),
        }
    }

    // ---- what is told

    fn tell(&mut self, hub: Hub, outcome: Outcome, text: &[u8]) {
        let _ = writeln!(self.told, "  outcome {}", outcome.number());
        for line in String::from_utf8_lossy(text).lines() {
            let _ = writeln!(self.told, "  | {line}");
        }
        let state = Image::read(&self.states[hub.0 as usize - 1]);
        let shown = state.map_or("no state".to_string(), |state| shown(&state, self.states.len()));
        let _ = writeln!(self.told, "  hub {}: {shown}", hub.0);
    }

    fn ended(mut self) -> String {
        self.told += "at the end\n";
        for (hub, bytes) in (1..).zip(&self.states) {
            let reported: Vec<String> = Image::read(bytes)
                .iter()
                .flat_map(Image::reported)
                .map(|command| name_of(&command))
                .collect();
            let _ = writeln!(self.told, "  hub {hub} reports {}", list(&reported));
        }
        self.told
    }
}

// ---- what damage and a loss of power do

fn cut(text: &mut Vec<u8>, size: &str) -> Result<(), String> {
    text.truncate(number(size)? as usize);
    Ok(())
}

fn change(text: &mut [u8], byte: &str, at: &str) -> Result<(), String> {
    let place = text.get_mut(number(at)? as usize).ok_or("the text ends before that")?;
    *place = byte.bytes().next().ok_or("no byte is named")?;
    Ok(())
}

/// A state's bytes with all that is lost at a restart filled so.
fn lost_filled(stored: &[u8], byte: u8) -> Vec<u8> {
    let mut bytes = stored.to_vec();
    for part in lost_parts(stored) {
        bytes[part].fill(byte);
    }
    bytes
}

// ---- words

/// The words of a list; a dash for none.
fn list(words: &[String]) -> String {
    if words.is_empty() { "-".to_string() } else { words.join(" ") }
}

/// A state in a line; the lost parts as the role has them.
fn shown(state: &Image, hubs: usize) -> String {
    let kept = format!(
        "term {}, ballot {}, chosen {}, log {}",
        state.term,
        state.ballot,
        state.chosen,
        rows(&state.log)
    );
    let numbers = |all: &[u32]| list(&all.iter().map(u32::to_string).collect::<Vec<_>>());
    match state.role {
        CANDIDATE => {
            let voters: Vec<u32> =
                (1..).zip(state.voters).filter(|told| told.1 == 1).map(|told| told.0).collect();
            format!("candidate, {kept}, voters {}, gathered {}", numbers(&voters), rows(&state.gathered))
        }
        LEADER => format!("leader, {kept}, confirmed {}", numbers(&state.confirmed[..hubs])),
        _ => format!("follower, {kept}"),
    }
}

fn rows(rows: &[Row]) -> String {
    list(&rows.iter().map(|(term, command)| format!("{term}:{}", name_of(command))).collect::<Vec<_>>())
}

// ---- commands by name

/// The command of a name: a letter for the motor and a number for the tenths of a second.
fn command(name: &str) -> Result<Command, String> {
    let wrong = || format!("{name} is no command");
    let letter = name.bytes().next().filter(u8::is_ascii_lowercase).ok_or_else(wrong)?;
    let tenths: u32 = name[1..].parse().map_err(|_| wrong())?;
    let mut bytes = [0, letter - b'a' + 1, 0, 1, 0, 0, 0, 0, 0x3f, 0, 0, 0, 0, 0, 0, 0];
    put_number(&mut bytes, 4, tenths.checked_mul(100).ok_or_else(wrong)?);
    Ok(bytes)
}

/// The name of a command; its digits if it has none.
fn name_of(bytes: &Command) -> String {
    let letter = char::from(bytes[1].wrapping_add(b'a' - 1));
    let name = format!("{letter}{}", number_at(bytes, 4) / 100);
    if command(&name).as_ref() == Ok(bytes) { name } else { hex(bytes) }
}
