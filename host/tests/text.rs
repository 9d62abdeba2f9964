//! Every rule of "Message text" and "Also required": an accepted text at the edge, a refused one just past it.

mod common;
use common::*;
use independent::message::{self, Append, Body, Entries, Message};
use independent::{Entry, Hub, Outcome, Place, Term};

const LAST_ENTRY: u32 = 1_024;

/// Read, and written back to the same bytes.
#[track_caller]
fn accept(text: &str) -> Message {
    let reading = message::read(text.as_bytes());
    let message = reading.message.unwrap_or_else(|_| panic!("refused:\n{text}"));
    let start = text.find("entry=").unwrap_or(text.len());
    assert_eq!(reading.entries.as_ptr(), text[start..].as_ptr());
    assert_eq!(reading.entries.len(), text.len() - start);
    let mut out = vec![0xa5; OUT_SIZE];
    let answer = message::write(&message, Entries::new(reading.entries), &mut out);
    assert_eq!((answer.outcome, answer.written), (Outcome::Done, text.len()));
    assert_eq!(&out[..text.len()], text.as_bytes());
    assert!(out[text.len()..].iter().all(|&byte| byte == 0xa5));
    message
}

#[track_caller]
fn refuse_bytes(text: &[u8]) {
    let reading = message::read(text);
    assert_eq!(reading.message, Err(Outcome::BadMessage), "accepted:\n{}", String::from_utf8_lossy(text));
    assert_eq!((reading.entries.as_ptr(), reading.entries.len()), (text.as_ptr(), 0));
}

#[track_caller]
fn refuse(text: &str) {
    refuse_bytes(text.as_bytes());
}

fn request(term: u32, last: u32, ballot: u32) -> String {
    format!("type=vote-request\nterm={term}\nfrom=2\nto=0\nlast={last}\nballot={ballot}\n")
}

fn yes(last: u32, ballot: u32, terms: &[u32]) -> String {
    let head = format!("type=vote-yes\nterm=9\nfrom=2\nto=1\nlast={last}\nballot={ballot}\n");
    format!("{head}count={}\n{}", terms.len(), entries(terms))
}

fn append(prev: u32, prevterm: u32, chosen: u32, terms: &[u32]) -> String {
    let head = format!("type=append\nterm=9\nfrom=2\nto=1\nprev={prev}\nprevterm={prevterm}\n");
    format!("{head}chosen={chosen}\ncount={}\n{}", terms.len(), entries(terms))
}

fn entries(terms: &[u32]) -> String {
    terms.iter().map(|&term| entry(term, 5)).collect()
}

fn samples() -> Vec<String> {
    vec![
        request(9, 2, 8),
        yes(2, 3, &[1, 3]),
        "type=vote-no\nterm=9\nfrom=2\nto=1\n".into(),
        append(2, 3, 1, &[4, 9]),
        "type=append-yes\nterm=9\nfrom=2\nto=1\nend=7\n".into(),
        "type=append-no\nterm=9\nfrom=2\nto=1\nlength=7\n".into(),
    ]
}

#[test]
fn fields_of_each_type() {
    let bodies = [
        Body::VoteRequest { last: Place(2), ballot: Term(8) },
        Body::VoteYes { last: Place(2), ballot: Term(3), count: 2 },
        Body::VoteNo,
        Body::Append(Append { prev: Place(2), prevterm: Term(3), chosen: Place(1), count: 2 }),
        Body::AppendYes { end: Place(7) },
        Body::AppendNo { length: Place(7) },
    ];
    for (text, body) in samples().iter().zip(bodies) {
        let to = Hub(if text.contains("request") { 0 } else { 1 });
        assert_eq!(accept(text), Message { term: Term(9), from: Hub(2), to, body });
    }
}

#[test]
fn every_line_is_needed_once_and_in_order() {
    for text in samples() {
        let lines: Vec<&str> = text.split_inclusive('\n').collect();
        for at in 0..lines.len() {
            let without: String = [&lines[..at], &lines[at + 1..]].concat().concat();
            refuse(&without);
            let twice: String = [&lines[..=at], &lines[at..]].concat().concat();
            refuse(&twice);
            if at > 0 {
                let mut swapped = lines.clone();
                swapped.swap(at - 1, at);
                refuse(&swapped.concat());
            }
        }
    }
}

#[test]
fn every_byte_counts() {
    for text in samples() {
        for at in 0..text.len() {
            refuse(&text[..at]);
            let mut inserted = text.clone().into_bytes();
            inserted.insert(at, b' ');
            refuse_bytes(&inserted);
            // Another digit may be another legal number; anything else is refused.
            let mut changed = text.clone().into_bytes();
            for byte in [b'\n', b'\r', b'=', b'+', b'-', b':', b'/', b'G', 0, 0x80, 0xff] {
                changed[at] = byte;
                if byte != text.as_bytes()[at] {
                    refuse_bytes(&changed);
                }
            }
        }
        for tail in ["\n", " ", "0", "\0", "entry=", "end=1\n"] {
            refuse(&format!("{text}{tail}"));
        }
        refuse(&format!("\n{text}"));
        refuse(&text.replace('\n', "\r\n"));
        refuse(&text.to_uppercase());
    }
    refuse("");
    refuse("\n");
}

#[test]
fn numbers() {
    let term = |value: &str| format!("type=vote-no\nterm={value}\nfrom=2\nto=1\n");
    for value in ["1", "9", "10", "100", "4294967295"] {
        accept(&term(value));
    }
    for value in
        ["", "01", "00", "+1", "-1", " 1", "1 ", "1.0", "0x1", "1_0", "4294967296", "18446744073709551617"]
    {
        refuse(&term(value));
    }
    refuse(&term(&"9".repeat(16_000)));
    let last = |value: &str| format!("type=vote-request\nterm=9\nfrom=2\nto=0\nlast={value}\nballot=0\n");
    accept(&last("0"));
    for value in ["", "00", "-0", "+0", "4294967296"] {
        refuse(&last(value));
    }
}

#[test]
fn types() {
    for name in ["", "append-", "append-maybe", "Append", "vote", "vote-yes ", "append\r", "heartbeat"] {
        refuse(&format!("type={name}\nterm=9\nfrom=2\nto=1\n"));
    }
    refuse("type=vote-no");
    refuse("term=9\ntype=vote-no\nfrom=2\nto=1\n");
}

#[test]
fn term_from_and_to() {
    let no = |term: u32, from: u32, to: u32| format!("type=vote-no\nterm={term}\nfrom={from}\nto={to}\n");
    accept(&no(1, 1, 1));
    accept(&no(1, 7, 7));
    refuse(&no(0, 1, 1));
    refuse(&no(1, 0, 1));
    refuse(&no(1, 8, 1));
    refuse(&no(1, 1, 0));
    refuse(&no(1, 1, 8));
    refuse(&no(1, 257, 1));
    for text in samples() {
        accept(&text.replace("from=2", "from=7"));
        refuse(&text.replace("from=2", "from=8"));
        refuse(&text.replace("from=2", "from=0"));
        refuse(&text.replace("term=9", "term=0"));
        if text.contains("request") {
            refuse(&text.replace("to=0", "to=1"));
        } else {
            accept(&text.replace("to=1", "to=7"));
            refuse(&text.replace("to=1", "to=8"));
            refuse(&text.replace("to=1", "to=0"));
        }
    }
    refuse("type=vote-request\nterm=0\nfrom=2\nto=0\nlast=0\nballot=0\n");
}

#[test]
fn places_and_counts() {
    for ordinary in [255, 256, 257] {
        accept(&request(9, ordinary, 8));
        accept(&append(ordinary, 9, ordinary, &[]));
        accept(&append(0, 0, ordinary, &vec![9; ordinary as usize]));
        accept(&yes(ordinary, 8, &[8]));
    }
    accept(&request(9, 1_024, 8));
    refuse(&request(9, 1_025, 8));
    refuse(&request(9, u32::MAX, 8));
    for key in ["append-yes\nterm=9\nfrom=2\nto=1\nend", "append-no\nterm=9\nfrom=2\nto=1\nlength"] {
        accept(&format!("type={key}=0\n"));
        accept(&format!("type={key}=1024\n"));
        refuse(&format!("type={key}=1025\n"));
        refuse(&format!("type={key}=4294967295\n"));
    }
    let all = vec![9; LAST_ENTRY as usize + 1];
    accept(&append(0, 0, 1_024, &all[..1_024]));
    refuse(&append(0, 0, 1_024, &all));
    accept(&append(1_024, 9, 1_024, &[]));
    refuse(&append(1_025, 9, 1_024, &[]));
    accept(&append(1_023, 9, 1_024, &[9]));
    refuse(&append(1_024, 9, 1_024, &[9]));
    refuse(&append(1_023, 9, 1_024, &[9, 9]));
    let all = vec![8; LAST_ENTRY as usize + 1];
    accept(&yes(0, 8, &all[..1_024]));
    refuse(&yes(0, 8, &all));
    accept(&yes(1_024, 8, &[]));
    refuse(&yes(1_025, 8, &[]));
    accept(&yes(1_023, 8, &[8]));
    refuse(&yes(1_024, 8, &[8]));
    // Sums that would wrap around.
    refuse("type=vote-yes\nterm=9\nfrom=2\nto=1\nlast=1\nballot=3\ncount=4294967295\n");
    refuse(
        "type=vote-yes\nterm=9\nfrom=2\nto=1\nlast=4294967295\nballot=3\ncount=1\nentry=1:00030001000000fa3f00000000000000\n",
    );
    refuse("type=append\nterm=9\nfrom=2\nto=1\nprev=1\nprevterm=1\nchosen=0\ncount=4294967295\n");
    refuse(
        "type=append\nterm=9\nfrom=2\nto=1\nprev=4294967295\nprevterm=1\nchosen=0\ncount=1\nentry=1:00030001000000fa3f00000000000000\n",
    );
}

#[test]
fn counts_and_entry_lines_agree() {
    for text in [yes(2, 3, &[1, 3]), append(2, 3, 1, &[4, 9])] {
        refuse(&text.replace("count=2", "count=1"));
        refuse(&text.replace("count=2", "count=3"));
        refuse(&text.replace("count=2", "count=0"));
    }
}

#[test]
fn ballots() {
    accept(&request(9, 2, 8));
    refuse(&request(9, 2, 9));
    refuse(&request(9, 2, 10));
    accept(&request(1, 0, 0));
    refuse(&request(1, 0, 1));
    accept(&request(9, 0, 0));
    accept(&request(9, 0, 5));
    refuse(&request(9, 1, 0));
    accept(&yes(2, 8, &[8]));
    refuse(&yes(2, 9, &[8]));
    refuse(&yes(2, 10, &[]));
    accept(&yes(2, 0, &[]));
    refuse(&yes(0, 0, &[1]));
    accept(&yes(0, 1, &[1]));
    accept(&yes(0, 5, &[]));
}

#[test]
fn prevterms() {
    accept(&append(0, 0, 0, &[]));
    refuse(&append(0, 1, 0, &[]));
    refuse(&append(1, 0, 0, &[]));
    accept(&append(1, 1, 0, &[]));
    accept(&append(1, 9, 0, &[]));
    refuse(&append(1, 10, 0, &[]));
}

#[test]
fn chosen() {
    accept(&append(2, 1, 3, &[1]));
    refuse(&append(2, 1, 4, &[1]));
    accept(&append(2, 1, 2, &[]));
    refuse(&append(2, 1, 3, &[]));
    accept(&append(2, 1, 0, &[1]));
    refuse(&append(0, 0, 1, &[]));
}

#[test]
fn entry_terms() {
    accept(&append(0, 0, 0, &[1, 1, 2, 9]));
    refuse(&append(0, 0, 0, &[0, 1]));
    refuse(&append(0, 0, 0, &[1, 3, 2]));
    refuse(&append(0, 0, 0, &[1, 10]));
    accept(&append(1, 4, 0, &[4]));
    refuse(&append(1, 4, 0, &[3]));
    refuse(&append(1, 4, 0, &[3, 4]));
    accept(&yes(0, 5, &[1, 1, 5]));
    refuse(&yes(0, 5, &[0, 1]));
    refuse(&yes(0, 5, &[1, 3, 2]));
    refuse(&yes(0, 5, &[1, 6]));
}

fn append_of(line: &str) -> String {
    format!("type=append\nterm=9\nfrom=2\nto=1\nprev=0\nprevterm=0\nchosen=0\ncount=1\n{line}\n")
}

#[test]
fn entry_lines() {
    accept(&append_of(&format!("entry=1:{HEX}")));
    accept(&append_of("entry=9:00400002000927c03f012345006789ab"));
    accept(&append_of("entry=9:0040000200000001000cdef03f000000"));
    for line in [
        format!("entry=01:{HEX}"),
        format!("entry=:{HEX}"),
        format!("entry=1;{HEX}"),
        format!("entry=1: {HEX}"),
        format!("entry=1:{HEX} "),
        format!("entry=1:{HEX}0"),
        format!("entry=1:{}", &HEX[..31]),
        format!("entry=1:{}", &HEX[..30]),
        format!("entry=1:{}", HEX.to_uppercase()),
        format!("entry=1:{}", HEX.replace("fa", "fg")),
        format!("entry=1:{}", HEX.replace("fa", "`a")),
        format!("entry=1:{}", HEX.replace("fa", "f/")),
        format!("entry=1:{}", HEX.replace("fa", "f:")),
        format!("Entry=1:{HEX}"),
        format!("entry=4294967297:{HEX}"),
    ] {
        refuse(&append_of(&line));
    }
}

#[test]
fn entry_commands() {
    for hex in [
        "00000001000000fa3f00000000000000",
        "00410001000000fa3f00000000000000",
        "00030003000000fa3f00000000000000",
        "00030001000927c13f00000000000000",
        "00030001ffffffff3f00000000000000",
        "00030001000000fa3f80000100000000",
        "00030001000000fa8000000000000000",
        "00030001000000fa3f00000000000001",
    ] {
        refuse(&append_of(&format!("entry=1:{hex}")));
        let last = append(0, 0, 0, &[1, 1]);
        let good = hex_of(5);
        let at = last.rfind(&good).unwrap();
        refuse(&format!("{}{hex}\n", &last[..at]));
    }
}

fn hex_of(number: u32) -> String {
    hex(&command(number))
}

#[test]
fn too_long() {
    refuse(&"\n".repeat(65_536));
    refuse(&"\n".repeat(65_537));
    refuse(&format!("{}{}", samples()[2], "x".repeat(65_536)));
}

// ---- written alone

fn write(message: &Message, entries: &[Entry], room: usize) -> (u32, Vec<u8>) {
    let mut out = vec![0xa5; room];
    let answer = message::write(message, entries.iter().copied(), &mut out);
    assert!(out[answer.written..].iter().all(|&byte| byte == 0xa5));
    out.truncate(answer.written);
    (answer.outcome.number(), out)
}

fn append_message(count: u32) -> Message {
    let append = Append { prev: Place(0), prevterm: Term(0), chosen: Place(0), count };
    Message { term: Term(1), from: Hub(1), to: Hub(2), body: Body::Append(append) }
}

#[test]
fn written_alone() {
    let entry = Entry { term: Term(1), command: bytes(HEX) };
    let one = append_message(1);
    assert_eq!(write(&one, &[entry], OUT_SIZE), (0, APPEND.as_bytes().to_vec()));
    assert_eq!(write(&one, &[entry], OUT_SIZE + 1).0, 0);
    assert_eq!(write(&one, &[entry], OUT_SIZE - 1), (3, vec![]));
    // Fewer or more entries than the count, or a bad one, is no message.
    assert_eq!(write(&one, &[], OUT_SIZE), (4, vec![]));
    assert_eq!(write(&one, &[entry, entry], OUT_SIZE), (4, vec![]));
    assert_eq!(write(&one, &[Entry { term: Term(2), ..entry }], OUT_SIZE), (4, vec![]));
    assert_eq!(write(&one, &[Entry { term: Term(0), ..entry }], OUT_SIZE), (4, vec![]));
    assert_eq!(write(&one, &[Entry { command: [0; 16], ..entry }], OUT_SIZE), (4, vec![]));
    assert_eq!(write(&Message { term: Term(0), ..one }, &[entry], OUT_SIZE), (4, vec![]));
    assert_eq!(write(&Message { body: Body::VoteNo, ..one }, &[entry], OUT_SIZE), (4, vec![]));
    assert_eq!(write(&append_message(u32::MAX), &[entry], OUT_SIZE), (4, vec![]));
    // 3 is tested first.
    assert_eq!(write(&one, &[], OUT_SIZE - 1), (3, vec![]));
    assert_eq!(write(&Message { term: Term(0), ..one }, &[entry], 0), (3, vec![]));
}
