//! Messages, read alone: the proved library and the independent program give the same answers, find the entry lines at the same place, name
//! the same first wrong byte of a refused text, and leave the same numbers. `KRITNAMON_ROUNDS=50` makes a longer run of it,
//! `KRITNAMON_SEED` another one.

use compare::binding::{Answer, read_message};
use compare::generator::messages::{FIELDS, ROOM, fields_of, random, shapes};
use compare::generator::rng::{Rng, rounds, seed};
use independent::{Outcome, message, place};

/// What stands in lent numbers before a call.
const BEFORE: [u32; FIELDS + 2] = [91, 92, 93, 94, 95, 96, 97, 98, 99, 100];

/// Reads a text with both, and counts as one comparison.
fn compare_read(text: &[u8]) -> u64 {
    let mut ours = BEFORE;
    let answer = read_message(text, &mut ours);
    let reading = message::read(text);
    let mut theirs = BEFORE;
    let outcome = match reading.message {
        Ok(message) => {
            theirs[..FIELDS].copy_from_slice(&fields_of(&message));
            Outcome::Done
        }
        Err(outcome) => outcome,
    };
    let entries = reading.entries.as_ptr() as usize - text.as_ptr() as usize;
    let expected = Answer { outcome, place: place::told(outcome, text) as u32, second: entries as u32 };
    let shown = String::from_utf8_lossy(&text[..text.len().min(400)]);
    assert_eq!(answer, expected, "{shown}");
    assert_eq!(ours, theirs, "{shown}");
    1
}

/// Bytes that a changed byte becomes: digits, signs, hex of both cases, line ends, and far ones.
const OTHERS: [u8; 10] = [b'0', b'1', b'9', b'a', b'F', b'-', b'\n', b'\r', 0, 0xff];

fn changed_at(text: &[u8], at: usize) -> u64 {
    let mut changed = text.to_vec();
    let mut done = 0;
    for other in OTHERS {
        changed[at] = other;
        done += compare_read(&changed);
    }
    done
}

/// The places of a text to look at: all of a short one; of a long one its beginning, its end, and some between.
fn places(text: &[u8]) -> impl Iterator<Item = usize> + '_ {
    let long = text.len() > 700;
    (0..text.len()).filter(move |&at| !long || at < 200 || at + 100 > text.len() || at % 97 == 0)
}

#[test]
fn every_shape_is_read_alike() {
    for sample in shapes() {
        let text = sample.text();
        compare_read(&text);
        assert_eq!(message::read(&text).message.map(|message| fields_of(&message)), Ok(sample.fields));
    }
}

#[test]
fn every_changed_byte_is_read_alike() {
    let mut done = 0;
    for sample in shapes() {
        let text = sample.text();
        done += places(&text).map(|at| changed_at(&text, at)).sum::<u64>();
    }
    println!("{done} comparisons");
    assert!(done > 150_000);
}

#[test]
fn every_truncation_is_read_alike() {
    let mut done = 0;
    for sample in shapes() {
        let text = sample.text();
        done += places(&text).map(|at| compare_read(&text[..at])).sum::<u64>();
    }
    println!("{done} comparisons");
    assert!(done > 15_000);
}

/// Commands of each kind, the ends of their ranges among them.
const COMMANDS: [&str; 6] = [
    "00010000000000000000000000000000",
    "00400001000000013f80000000000000",
    "00030001000927c03f7fffff00000000",
    "003f0002000000143f800000000abcde",
    "000900020009279f1234567800000001",
    "002a000200078bcd3e9f0acf3f800000",
];

/// Appends of two such entries, the first with a term of one, two or ten digits: the texts before, of and behind its line.
fn entry_lines() -> impl Iterator<Item = [String; 3]> {
    let numbers =
        |term| format!("type=append\nterm={term}\nfrom=1\nto=2\nprev=0\nprevterm=0\nchosen=0\ncount=2\n");
    [7u32, 42, u32::MAX].into_iter().flat_map(move |term| {
        COMMANDS.map(|command| {
            let line = format!("entry={term}:{command}\n");
            [numbers(term), line, format!("entry={term}:{}\n", COMMANDS[0])]
        })
    })
}

/// Digits are looked at eight at a time: no byte at any of their places may be taken for another, or hide a wrong one beside it.
#[test]
fn every_byte_of_an_entry_line_is_read_alike() {
    let mut done = 0;
    for [before, line, behind] in entry_lines() {
        let mut text = [before.as_str(), &line, &behind].concat().into_bytes();
        for at in before.len()..before.len() + line.len() {
            let right = text[at];
            for byte in 0..=u8::MAX {
                text[at] = byte;
                done += compare_read(&text);
            }
            text[at] = right;
        }
    }
    println!("{done} comparisons");
    assert!(done > 150_000);
}

/// Numbers at and next to the ends of what a command may have, and others with the same low or high digits.
const MOTORS: [u16; 9] = [0, 1, 9, 10, 63, 64, 65, 0x0140, 0x4000];
const KINDS: [u16; 8] = [0, 1, 2, 3, 9, 10, 0x0100, 0x1000];
const DURATIONS: [u32; 10] = [0, 1, 19, 20, 599_999, 600_000, 600_001, 0x0009_2800, 0x8000_0000, u32::MAX];
const GAINS: [u32; 8] = [0, 1, 0x3f7f_ffff, 0x3f80_0000, 0x3f80_0001, 0x3fa0_0000, 0x4000_0000, 0x8000_0000];

#[test]
fn every_command_at_a_limit_is_read_alike() {
    let mut done = 0;
    for motor in MOTORS {
        for kind in KINDS {
            for duration in DURATIONS {
                for a in GAINS {
                    for b in GAINS {
                        let digits = format!("{motor:04x}{kind:04x}{duration:08x}{a:08x}{b:08x}");
                        let text = format!(
                            "type=vote-yes\nterm=9\nfrom=1\nto=2\nlast=0\nballot=5\ncount=1\nentry=5:{digits}\n"
                        );
                        done += compare_read(text.as_bytes());
                    }
                }
            }
        }
    }
    println!("{done} comparisons");
    assert_eq!(done, 46_080);
}

/// A text's lines, with their ends.
fn lines(text: &[u8]) -> Vec<&[u8]> {
    text.split_inclusive(|&byte| byte == b'\n').collect()
}

#[test]
fn doubled_missing_and_exchanged_lines_are_read_alike() {
    let mut done = 0;
    for sample in shapes() {
        let text = sample.text();
        let all = lines(&text);
        for at in 0..all.len().min(12) {
            let mut doubled = all.clone();
            doubled.insert(at, all[at]);
            done += compare_read(&doubled.concat());
            let mut missing = all.clone();
            missing.remove(at);
            done += compare_read(&missing.concat());
            let mut exchanged = all.clone();
            exchanged.swap(at, (at + 1) % all.len());
            done += compare_read(&exchanged.concat());
        }
    }
    println!("{done} comparisons");
    assert!(done > 2_000);
}

/// Numbers as they must not be written, and numbers at and past every edge.
const NUMBERS: [&str; 28] = [
    "",
    "0",
    "1",
    "2",
    "7",
    "8",
    "00",
    "01",
    "+1",
    "-1",
    " 1",
    "1 ",
    "0x1",
    "255",
    "256",
    "257",
    "1023",
    "1024",
    "1025",
    "1026",
    "65536",
    "4294967294",
    "4294967295",
    "4294967296",
    "18446744073709551616",
    "99999999999999999999999999",
    "1e3",
    "1.0",
];

#[test]
fn other_numbers_are_read_alike() {
    let mut done = 0;
    for sample in shapes() {
        let text = sample.text();
        let all = lines(&text);
        for at in 1..all.len().min(10) {
            let Some(key) = all[at].iter().position(|&byte| byte == b'=') else { continue };
            let tail = all[at].iter().position(|&byte| byte == b':').unwrap_or(all[at].len() - 1);
            for number in NUMBERS {
                let line = [&all[at][..=key], number.as_bytes(), &all[at][tail..]].concat();
                let changed = [all[..at].concat(), line, all[at + 1..].concat()].concat();
                done += compare_read(&changed);
            }
        }
    }
    println!("{done} comparisons");
    assert!(done > 15_000);
}

#[test]
fn other_line_ends_and_trailing_bytes_are_read_alike() {
    for sample in shapes() {
        let text = sample.text();
        let with_cr: Vec<u8> =
            lines(&text).iter().flat_map(|line| [&line[..line.len() - 1], b"\r\n"].concat()).collect();
        compare_read(&with_cr);
        compare_read(&text.to_ascii_uppercase());
        for tail in [&b"\n"[..], b"\0", b" ", b"type=vote-no\n", b"entry=1:", &text] {
            compare_read(&[&text, tail].concat());
        }
        for length in [ROOM - 1, ROOM, ROOM + 1, 2 * ROOM] {
            let mut long = text.clone();
            long.resize(length, b'\n');
            compare_read(&long);
        }
    }
}

#[test]
fn random_texts_are_read_alike() {
    let mut rng = Rng::seeded(seed());
    let mut done = 0;
    for _ in 0..10_000 * rounds() {
        let mut text = random(&mut rng).text();
        done += compare_read(&text);
        for _ in 0..1 + rng.below(3) {
            let at = rng.below(text.len() as u64) as usize;
            match rng.below(3) {
                0 => text[at] = rng.pick(&OTHERS),
                1 => text.insert(at, rng.pick(&OTHERS)),
                _ => drop(text.remove(at)),
            }
            done += compare_read(&text);
        }
    }
    println!("{done} comparisons");
}

#[test]
fn few_numbers_are_refused() {
    let text = shapes()[0].text();
    for (room, length) in (0..FIELDS).flat_map(|room| [(room, text.len()), (room, text.len() - 1)]) {
        let mut numbers = BEFORE[..room].to_vec();
        let answer = read_message(&text[..length], &mut numbers);
        assert_eq!(answer, Answer::new(Outcome::ShortOutput, 0));
        assert_eq!(numbers, BEFORE[..room]);
    }
}
