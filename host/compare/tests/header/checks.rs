//! What the header's numbers mean, seen in what the library does with them. A check takes its numbers from the header alone, and says what
//! is wrong with them.

use crate::numbers::Numbers;
use compare::binding::{
    Answer, play, read_command, read_message, sizes, step, version, write_command, write_message,
};
use independent::Outcome;
use std::fmt::Debug;
use std::ops::Range;

type Check = fn(&Numbers) -> Result<(), String>;

const CHECKS: [Check; 13] = [
    the_version_is_the_librarys,
    sizes_are_the_librarys,
    a_command_has_its_size,
    a_command_has_its_kinds,
    a_command_has_its_numbers,
    a_proposal_lasts_so_long,
    an_elapsed_time_is_so_long,
    a_message_has_its_size,
    a_message_has_its_numbers,
    an_entry_has_its_row,
    a_state_has_its_parts_and_events_do_what_they_say,
    a_restart_looks_at_the_kept_parts,
    outcomes_are_provoked,
];

/// What a check says against these numbers.
pub fn objection(header: &Numbers) -> Option<String> {
    CHECKS.into_iter().find_map(|check| check(header).err())
}

fn same<T: PartialEq + Debug>(what: &str, seen: T, said: T) -> Result<(), String> {
    if seen == said {
        Ok(())
    } else {
        Err(format!("{what}: {seen:?} in the library, {said:?} by the header"))
    }
}

fn the_version_is_the_librarys(header: &Numbers) -> Result<(), String> {
    same("VERSION", version(), header.get("VERSION")?)
}

fn sizes_are_the_librarys(header: &Numbers) -> Result<(), String> {
    let (state, places, text) = sizes();
    same("STATE_SIZE", state, header.size("STATE_SIZE")?)?;
    same("PLACES", places, header.get("PLACES")?)?;
    same("TEXT_MOST", text, header.size("TEXT_MOST")?)
}

// ---- commands

const HALF: u32 = 0x3f00_0000;
const WHOLE: u32 = 0x3f80_0000;

/// The size that is said is the least room for an answer: in one less it is refused.
fn least_room(said: usize, mut call: impl FnMut(usize) -> Outcome) -> Result<(), String> {
    same("one less than the size", call(said.saturating_sub(1)), Outcome::ShortOutput)?;
    same("the size", call(said), Outcome::Done)
}

fn a_command_has_its_size(header: &Numbers) -> Result<(), String> {
    let stop = header.get("STOP")?;
    let write = |room| write_command(3, stop, 0, 0, 0, &mut vec![0; room]);
    least_room(header.size("COMMAND_SIZE")?, write)?;
    least_room(header.size("COMMAND_NUMBERS")?, |room| read_command(&STOP, &mut vec![0; room]))
}

/// A stop lasts for no time, a buzz has one gain, and only a ramp has a second.
fn a_command_has_its_kinds(header: &Numbers) -> Result<(), String> {
    let kinds = [header.get("STOP")?, header.get("BUZZ")?, header.get("RAMP")?];
    let taken = |duration, a, b| {
        kinds.map(|kind| write_command(3, kind, duration, a, b, &mut [0; 16]) == Outcome::Done)
    };
    same("a command without numbers", taken(0, 0, 0), [true, false, false])?;
    same("a command with one gain", taken(250, HALF, 0), [false, true, true])?;
    same("a command with two gains", taken(250, HALF, WHOLE), [false, false, true])
}

fn a_command_has_its_numbers(header: &Numbers) -> Result<(), String> {
    let ramp = header.get("RAMP")?;
    let mut bytes = [0; 16];
    same("a ramp", write_command(3, ramp, 250, HALF, WHOLE, &mut bytes), Outcome::Done)?;
    let mut numbers = vec![0; header.size("COMMAND_NUMBERS")?];
    same("the ramp read", read_command(&bytes, &mut numbers), Outcome::Done)?;
    let told = [("MOTOR", 3), ("KIND", ramp), ("DURATION", 250), ("A", HALF), ("B", WHOLE)];
    told.into_iter().try_for_each(|(name, value)| same(name, Some(&value), numbers.get(header.size(name)?)))
}

/// A shorter buzz or ramp is legal, and not proposed.
fn a_proposal_lasts_so_long(header: &Numbers) -> Result<(), String> {
    let least = header.get("FELT_LEAST")? as i32;
    for kind in [header.get("BUZZ")?, header.get("RAMP")?] {
        for (duration, outcome) in [(least - 1, Outcome::BadCommand), (least, Outcome::Done)] {
            let mut bytes = [0; 16];
            same("a command", write_command(3, kind, duration, HALF, 0, &mut bytes), Outcome::Done)?;
            same("FELT_LEAST", Hub::leader(header)?.outcome("PROPOSE", &bytes)?, outcome)?;
        }
    }
    Ok(())
}

/// The outcome of a play.
fn played(bytes: &[u8], elapsed: i64, floor: u32, ceiling: u32) -> Outcome {
    let (mut left, mut drive) = (1, 1);
    play(bytes, elapsed, floor, ceiling, &mut left, &mut drive)
}

/// The longest elapsed time is played, and a longer one is not.
fn an_elapsed_time_is_so_long(header: &Numbers) -> Result<(), String> {
    let most = i64::from(header.get("ELAPSED_MOST")?);
    same("ELAPSED_MOST", played(&STOP, most, 0, WHOLE), Outcome::Done)?;
    same("one more than ELAPSED_MOST", played(&STOP, most + 1, 0, WHOLE), Outcome::BadElapsed)
}

// ---- messages

/// A text of each type, by the type's name in the header, with its own numbers and the count of its entries.
const TEXTS: [(&str, &str, [u32; 3], u32); 6] = [
    ("VOTE_REQUEST", "type=vote-request\nterm=9\nfrom=1\nto=0\nlast=5\nballot=6\n", [5, 6, 0], 0),
    ("VOTE_YES", "type=vote-yes\nterm=9\nfrom=1\nto=2\nlast=5\nballot=6\ncount=0\n", [5, 6, 0], 0),
    ("VOTE_NO", "type=vote-no\nterm=9\nfrom=1\nto=2\n", [0; 3], 0),
    (
        "APPEND",
        "type=append\nterm=9\nfrom=1\nto=2\nprev=5\nprevterm=6\nchosen=4\ncount=1\n\
         entry=7:00030001000000fa3f00000000000000\n",
        [5, 6, 4],
        1,
    ),
    ("APPEND_YES", "type=append-yes\nterm=9\nfrom=1\nto=2\nend=5\n", [5, 0, 0], 0),
    ("APPEND_NO", "type=append-no\nterm=9\nfrom=1\nto=2\nlength=5\n", [5, 0, 0], 0),
];

fn a_message_has_its_size(header: &Numbers) -> Result<(), String> {
    let text = TEXTS[0].1.as_bytes();
    least_room(header.size("MESSAGE_NUMBERS")?, |room| read_message(text, &mut vec![0; room]).outcome)
}

fn a_message_has_its_numbers(header: &Numbers) -> Result<(), String> {
    for (name, text, [a, b, c], count) in TEXTS {
        let mut numbers = vec![0; header.size("MESSAGE_NUMBERS")?];
        same(name, read_message(text.as_bytes(), &mut numbers).outcome, Outcome::Done)?;
        let to = if name == "VOTE_REQUEST" { header.get("ALL")? } else { 2 };
        let head = [("TYPE", header.get(name)?), ("TERM", 9), ("FROM", 1), ("TO", to)];
        let own = [("OWN_1", a), ("OWN_2", b), ("OWN_3", c), ("COUNT", count)];
        for (place, value) in head.into_iter().chain(own) {
            same(&format!("{place} of {name}"), Some(&value), numbers.get(header.size(place)?))?;
        }
    }
    Ok(())
}

/// A row of the size that is said is taken, and none of another size.
fn an_entry_has_its_row(header: &Numbers) -> Result<(), String> {
    let mut numbers = vec![0; header.size("MESSAGE_NUMBERS")?];
    read_message(TEXTS[3].1.as_bytes(), &mut numbers);
    let row = [&[0, 0, 0, 7, 0, 3, 0, 1, 0, 0, 0, 250, 0x3f][..], &[0; 64]].concat();
    let mut out = vec![0; header.size("TEXT_MOST")?];
    let mut taken = |size: usize| row.get(..size).map(|row| write_message(&numbers, row, &mut out).outcome);
    let size = header.size("ROW_SIZE")?;
    same("a row", taken(size), Some(Outcome::Done))?;
    same("a row and a byte", taken(size + 1), Some(Outcome::BadMessage))
}

// ---- states and events

/// Hub 1 of a group, called with the header's numbers.
struct Hub<'a> {
    header: &'a Numbers,
    n: u32,
    state: Vec<u8>,
    room: usize,
}

const STOP: [u8; 16] = [0, 3, 0, 0, 0, 0, 0, 0, 0, 0, 0, 0, 0, 0, 0, 0];

/// Hub 2's vote for a hub that asks at term 1.
const YES: &[u8] = b"type=vote-yes\nterm=1\nfrom=2\nto=1\nlast=0\nballot=0\ncount=0\n";

impl Hub<'_> {
    fn fresh(header: &Numbers, n: u32) -> Result<Hub<'_>, String> {
        Ok(Hub { header, n, state: vec![0; header.size("STATE_SIZE")?], room: header.size("TEXT_MOST")? })
    }

    /// Takes an event, and hands back the outcome and the message.
    fn take(&mut self, event: &str, a: u32, b: u32, input: &[u8]) -> Result<(Outcome, String), String> {
        let mut out = vec![0; self.room];
        let event = self.header.get(event)?;
        let Answer { outcome, second, .. } = step(self.n, 1, event, a, b, &mut self.state, input, &mut out);
        Ok((outcome, String::from_utf8_lossy(&out[..second as usize]).into_owned()))
    }

    /// Takes an event of which nothing but the outcome counts.
    fn outcome(&mut self, event: &str, input: &[u8]) -> Result<Outcome, String> {
        self.take(event, 1, 0, input).map(|answer| answer.0)
    }

    /// Takes an event that has to be done, with a message that begins so, or with none.
    fn does(&mut self, event: &str, a: u32, b: u32, input: &[u8], begins: &str) -> Result<(), String> {
        let (outcome, text) = self.take(event, a, b, input)?;
        let as_said =
            outcome == Outcome::Done && text.starts_with(begins) && text.is_empty() == begins.is_empty();
        if as_said { Ok(()) } else { Err(format!("{event}: {outcome:?} with the message {text:?}")) }
    }

    /// The number of the state that stands so many numbers behind a named offset.
    fn number(&self, name: &str, behind: usize) -> Result<u32, String> {
        let at = self.header.size(name)? + 4 * behind;
        let bytes = self.state.get(at..at + 4).ok_or(format!("{name} is not in a state"))?;
        Ok(u32::from_be_bytes(bytes.try_into().expect("four bytes")))
    }

    fn is(&self, role: &str) -> Result<(), String> {
        let seen = self.state.get(self.header.size("STATE_ROLE")?).copied().map(u32::from);
        same(role, seen, Some(self.header.get(role)?))
    }

    fn has(&self, name: &str, values: &[u32]) -> Result<(), String> {
        let said = |(behind, value): (usize, &u32)| same(name, *value, self.number(name, behind)?);
        values.iter().enumerate().try_for_each(said)
    }

    /// Hub 1 of 3 as the leader of term 1.
    fn leader(header: &Numbers) -> Result<Hub<'_>, String> {
        let mut hub = Hub::fresh(header, 3)?;
        hub.outcome("START", b"")?;
        hub.outcome("RECEIVE", YES)?;
        Ok(hub)
    }
}

/// Hub 1 of seven asks twice, leads at term 2, has seven commands, of which each other hub confirms another length, and restarts.
fn a_state_has_its_parts_and_events_do_what_they_say(header: &Numbers) -> Result<(), String> {
    let mut hub = Hub::fresh(header, 7)?;
    hub.is("FOLLOWER")?;
    for term in [1, 2] {
        hub.does("START", 0, 0, b"", "type=vote-request\n")?;
        hub.has("STATE_TERM", &[term])?;
    }
    for from in [2, 3, 4] {
        hub.is("CANDIDATE")?;
        let yes = format!("type=vote-yes\nterm=2\nfrom={from}\nto=1\nlast=0\nballot=0\ncount=0\n");
        hub.does("RECEIVE", 0, 0, yes.as_bytes(), "")?;
    }
    for length in 0..7 {
        hub.is("LEADER")?;
        hub.has("STATE_LENGTH", &[length])?;
        hub.does("PROPOSE", 0, 0, &STOP, "")?;
    }
    for from in 2..=7 {
        let end = format!("type=append-yes\nterm=2\nfrom={from}\nto=1\nend={}\n", from - 1);
        hub.does("RECEIVE", 0, 0, end.as_bytes(), "")?;
    }
    hub.has("STATE_CONFIRMED", &[7, 1, 2, 3, 4, 5, 6])?;
    hub.does("SEND", 3, 1, b"", "type=append\nterm=2\nfrom=1\nto=3\nprev=1\n")?;
    hub.does("RESTART", 0, 0, b"", "")?;
    hub.is("FOLLOWER")?;
    hub.has("STATE_LENGTH", &[7])?;
    hub.has("STATE_CONFIRMED", &[0; 7])
}

/// A leader of one entry restarts alike whatever stands between the kept head and the rows, and not with another byte at either edge.
fn a_restart_looks_at_the_kept_parts(header: &Numbers) -> Result<(), String> {
    let mut leader = Hub::leader(header)?;
    leader.does("PROPOSE", 0, 0, &STOP, "")?;
    let (kept, rows) = (header.size("STATE_KEPT")?, header.size("STATE_ROWS")?);
    let restarted = |spoilt: Range<usize>| {
        let mut hub = Hub { state: leader.state.clone(), ..leader };
        hub.state.get_mut(spoilt).ok_or("no part of a state")?.fill(0xff);
        Ok::<_, String>((hub.outcome("RESTART", b"")?, hub.state))
    };
    let whole = restarted(0..0)?;
    same("behind STATE_KEPT", restarted(kept..rows)?, whole.clone())?;
    for edge in [kept.wrapping_sub(1), rows] {
        if restarted(edge..edge.wrapping_add(1))? == whole {
            return Err(format!("byte {edge} is not kept"));
        }
    }
    Ok(())
}

// ---- outcomes

type Provocation = fn(&Numbers) -> Result<Outcome, String>;

/// For each outcome a call that gives it.
const PROVOKED: [(Outcome, Provocation); 17] = [
    (Outcome::Done, |header| Hub::fresh(header, 3)?.outcome("START", b"")),
    (Outcome::NotKnown, |header| Hub::fresh(header, 4)?.outcome("START", b"")),
    (Outcome::BadState, state_cut),
    (Outcome::ShortOutput, output_cut),
    (Outcome::BadMessage, |header| Hub::fresh(header, 3)?.outcome("RECEIVE", b"")),
    (Outcome::NotAddressed, to_another),
    (Outcome::Stale, asked_at_own_term),
    (Outcome::Contradicting, append_at_leader),
    (Outcome::WrongRole, |header| Hub::leader(header)?.outcome("START", b"")),
    (Outcome::NoTermLeft, start_at_last_term),
    (Outcome::BadCommand, |header| Hub::leader(header)?.outcome("PROPOSE", b"")),
    (Outcome::LogFull, one_more_than_places),
    (Outcome::OutOfRange, |header| Hub::leader(header)?.outcome("SEND", b"")),
    (Outcome::NothingNew, |header| Hub::leader(header)?.outcome("RECEIVE", YES)),
    (Outcome::NotPlayable, |_| Ok(played(&[], 0, 0, WHOLE))),
    (Outcome::BadCalibration, |_| Ok(played(&STOP, 0, WHOLE, HALF))),
    (Outcome::BadElapsed, |_| Ok(played(&STOP, -1, 0, WHOLE))),
];

/// An outcome's name in the header: its words in capitals.
fn header_name(outcome: Outcome) -> String {
    let mut name = String::new();
    for letter in format!("{outcome:?}").chars() {
        if letter.is_ascii_uppercase() && !name.is_empty() {
            name.push('_');
        }
        name.push(letter.to_ascii_uppercase());
    }
    name
}

fn outcomes_are_provoked(header: &Numbers) -> Result<(), String> {
    for (outcome, provoked) in PROVOKED {
        let (name, given) = (header_name(outcome), provoked(header)?);
        same(&name, given.number(), header.get(&name)?)?;
        same(&name, given, outcome)?;
    }
    Ok(())
}

fn state_cut(header: &Numbers) -> Result<Outcome, String> {
    let mut hub = Hub::fresh(header, 3)?;
    hub.state.pop();
    hub.outcome("START", b"")
}

fn output_cut(header: &Numbers) -> Result<Outcome, String> {
    let mut hub = Hub::fresh(header, 3)?;
    hub.room -= 1;
    hub.outcome("START", b"")
}

fn to_another(header: &Numbers) -> Result<Outcome, String> {
    Hub::fresh(header, 3)?.outcome("RECEIVE", b"type=vote-no\nterm=1\nfrom=2\nto=3\n")
}

fn asked_at_own_term(header: &Numbers) -> Result<Outcome, String> {
    let ask = b"type=vote-request\nterm=1\nfrom=2\nto=0\nlast=0\nballot=0\n";
    Hub::leader(header)?.outcome("RECEIVE", ask)
}

fn append_at_leader(header: &Numbers) -> Result<Outcome, String> {
    let append = b"type=append\nterm=1\nfrom=2\nto=1\nprev=0\nprevterm=0\nchosen=0\ncount=0\n";
    Hub::leader(header)?.outcome("RECEIVE", append)
}

fn start_at_last_term(header: &Numbers) -> Result<Outcome, String> {
    let mut hub = Hub::fresh(header, 3)?;
    let last = format!("type=vote-no\nterm={}\nfrom=2\nto=1\n", u32::MAX);
    hub.outcome("RECEIVE", last.as_bytes())?;
    hub.outcome("START", b"")
}

fn one_more_than_places(header: &Numbers) -> Result<Outcome, String> {
    let mut hub = Hub::leader(header)?;
    for _ in 0..header.get("PLACES")? {
        same("PLACES", hub.outcome("PROPOSE", &STOP)?, Outcome::Done)?;
    }
    hub.outcome("PROPOSE", &STOP)
}
