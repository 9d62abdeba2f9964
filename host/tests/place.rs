//! Where a refused text is wrong: each rule's edge, every truncation and changed byte, and the definition itself where all legal messages
//! that start so can be listed.

mod common;
use common::*;
use independent::place::{first_wrong, told};
use independent::{LIMIT, Outcome, message};

/// The text is wrong right behind its first part.
#[track_caller]
fn wrong_behind(right: &str, rest: &str) {
    assert_eq!(first_wrong(format!("{right}{rest}").as_bytes()), right.len(), "{right}|{rest}");
}

/// The text begins a legal message, and is none.
#[track_caller]
fn unfinished(text: &str) {
    wrong_behind(text, "");
}

fn no(term: &str) -> String {
    format!("type=vote-no\nterm={term}")
}

fn request(term: u32) -> String {
    format!("type=vote-request\nterm={term}\nfrom=2\nto=0\nlast=")
}

fn append(prev: u32, prevterm: u32, chosen: u32) -> String {
    format!("type=append\nterm=9\nfrom=2\nto=1\nprev={prev}\nprevterm={prevterm}\nchosen={chosen}\ncount=")
}

/// An entry line of such a term in an append, or in a vote-yes with ballot 8, up to its command.
fn entries(term: u32) -> [String; 2] {
    let yes = "type=vote-yes\nterm=9\nfrom=2\nto=1\nlast=3\nballot=8\ncount=";
    [append(3, 2, 1), yes.to_string()].map(|head| format!("{head}2\n{}entry={term}:", entry(3, 5)))
}

fn samples() -> Vec<String> {
    let mut all = vec![
        format!("{}2\nballot=8\n", request(9)),
        format!("{}0\nballot=0\n", request(1)),
        format!("{}1024\nballot=4294967294\n", request(u32::MAX)),
        "type=vote-yes\nterm=9\nfrom=7\nto=7\nlast=1024\nballot=0\ncount=0\n".into(),
        "type=vote-no\nterm=4294967295\nfrom=2\nto=1\n".into(),
        "type=append-yes\nterm=9\nfrom=2\nto=1\nend=1024\n".into(),
        "type=append-no\nterm=9\nfrom=2\nto=1\nlength=0\n".into(),
        APPEND.into(),
        format!("{}0\n", append(1_024, 9, 1_024)),
        format!("{}3\n{}{}{}", append(1_021, 2, 1_024), entry(2, 1), entry(5, 20), entry(9, 600_000)),
        format!("{}12\n{}", append(0, 0, 11), entry(9, 7).repeat(12)),
    ];
    all.extend(entries(8).map(|text| format!("{text}{HEX}\n")));
    all
}

// ---- the rules, one by one

#[test]
fn types() {
    unfinished("");
    wrong_behind("", "\n");
    wrong_behind("", "Type=append\n");
    wrong_behind("type=", "\n");
    wrong_behind("type=append", " \n");
    wrong_behind("type=append", "=\n");
    wrong_behind("type=append", "\r\n");
    wrong_behind("type=append-", "\n");
    wrong_behind("type=append-n", "\n");
    wrong_behind("type=vote", "\n");
    wrong_behind("type=vote-no", "t\n");
    wrong_behind("type=append\n", "from=1\n");
    wrong_behind("type=append\nt", "o=1\n");
}

#[test]
fn numbers() {
    wrong_behind(&no("429496729"), "6\nfrom=2\nto=1\n");
    unfinished(&no("4294967295"));
    wrong_behind(&no("4294967295"), "0\nfrom=2\nto=1\n");
    wrong_behind(&no("42949672"), "x\nfrom=2\nto=1\n");
    wrong_behind(&no("999999999"), "9\nfrom=2\nto=1\n");
    wrong_behind(&no(""), "0\nfrom=2\nto=1\n");
    wrong_behind(&no(""), "\nfrom=2\nto=1\n");
    wrong_behind(&no(""), "-1\nfrom=2\nto=1\n");
    wrong_behind(&no("7"), " \nfrom=2\nto=1\n");
    wrong_behind(&format!("{}0", request(9)), "0\nballot=0\n");
    wrong_behind(&format!("{}0", request(9)), "1\nballot=0\n");
}

#[test]
fn hubs() {
    wrong_behind(&no("1\nfrom="), "0\nto=1\n");
    wrong_behind(&no("1\nfrom="), "8\nto=1\n");
    wrong_behind(&no("1\nfrom=1"), "0\nto=1\n");
    wrong_behind(&no("1\nfrom=7\nto="), "0\n");
    wrong_behind(&no("1\nfrom=7\nto="), "9\n");
    wrong_behind("type=vote-request\nterm=9\nfrom=2\nto=", "1\nlast=0\nballot=0\n");
}

#[test]
fn places_and_ballots() {
    wrong_behind(&format!("{}102", request(9)), "5\nballot=8\n");
    wrong_behind(&format!("{}1024", request(9)), "0\nballot=8\n");
    wrong_behind(&format!("{}103", request(9)), "0\nballot=8\n");
    wrong_behind(&format!("{}3\nballot=", request(9)), "0\n");
    wrong_behind(&format!("{}3\nballot=", request(9)), "9\n");
    wrong_behind(&format!("{}3\nballot=8", request(9)), "1\n");
    wrong_behind(&format!("{}0\nballot=1", request(12)), "2\n");
    wrong_behind(&request(1), "1\nballot=0\n");
    wrong_behind(&format!("{}0\nballot=", request(1)), "1\n");
    wrong_behind("type=append-yes\nterm=9\nfrom=2\nto=1\nend=102", "9\n");
    wrong_behind("type=append-no\nterm=9\nfrom=2\nto=1\nlength=", "\n");
}

#[test]
fn counts() {
    wrong_behind(&format!("{}1", append(0, 0, 5)), "\n");
    unfinished(&format!("{}10", append(0, 0, 5)));
    unfinished(&format!("{}10\n", append(0, 0, 5)));
    wrong_behind(&append(1_018, 1, 1_023), "1\n");
    unfinished(&format!("{}5\n", append(1_018, 1, 1_023)));
    unfinished(&format!("{}6\n", append(1_018, 1, 1_023)));
    wrong_behind(&append(1_018, 1, 1_023), "7\n");
    wrong_behind(&append(1_024, 1, 0), "1\n");
    unfinished(&format!("{}1024\n", append(0, 0, 1_024)));
    wrong_behind(&format!("{}102", append(0, 0, 1_024)), "3\n");
    let yes = "type=vote-yes\nterm=9\nfrom=2\nto=1\nlast=";
    wrong_behind(&format!("{yes}0\nballot=0\ncount="), "1\n");
    wrong_behind(&format!("{yes}1000\nballot=3\ncount=2"), "5\n");
}

#[test]
fn prevterm_and_chosen() {
    let head = "type=append\nterm=12\nfrom=2\nto=1\nprev=";
    wrong_behind(&format!("{head}0\nprevterm="), "1\n");
    wrong_behind(&format!("{head}1\nprevterm="), "0\n");
    wrong_behind(&format!("{head}1\nprevterm=1"), "3\n");
    wrong_behind(&format!("{head}1\nprevterm=3"), "3\n");
    wrong_behind(&format!("{head}0\nprevterm=0\nchosen=102"), "5\n");
}

#[test]
fn entry_terms() {
    let head = format!("{}2\n{}", append(1, 2, 0), entry(5, 1));
    wrong_behind(&format!("{head}entry="), &format!("4:{HEX}\n"));
    wrong_behind(&format!("{head}entry=5"), &format!("0:{HEX}\n"));
    wrong_behind(&format!("{head}entry="), &format!("1:{HEX}\n"));
    wrong_behind(&format!("{head}ent"), "ity=5");
    let first = format!("{}2\nentry=", append(1, 2, 0).replace("term=9", "term=31"));
    unfinished(&format!("{first}1"));
    wrong_behind(&format!("{first}1"), &format!(":{HEX}\n"));
    wrong_behind(&format!("{first}3"), &format!("2:{HEX}\n"));
    let yes = "type=vote-yes\nterm=9\nfrom=2\nto=1\nlast=3\nballot=8\ncount=1\nentry=";
    wrong_behind(yes, &format!("9:{HEX}\n"));
    wrong_behind(yes, &format!("0:{HEX}\n"));
}

#[test]
fn commands() {
    for text in entries(8) {
        let wrong = |right: &str, rest: &str| wrong_behind(&format!("{text}{right}"), rest);
        wrong("", "\n");
        wrong("000", "0");
        wrong("004", "10001");
        wrong("00", "80");
        wrong("0", "100");
        wrong("0003000", "3");
        wrong("000300", "10");
        wrong("00030000", "10000000");
        wrong("000300000000000", "1");
        wrong("00030001", "ffffffff3f00000000000000\n");
        wrong("000300010009", "3000");
        wrong("00030001000927c", "13f00000000000000\n");
        wrong("000300010000000", "03f00000000000000\n");
        wrong("00030001000000fa3f", "90000000000000\n");
        wrong("00030001000000fa3f80000", "100000000\n");
        wrong("00030001000000fa", "8000000000000000\n");
        wrong("00030001000000fa", "F");
        wrong("00030001000000fa3f000000", "10000000\n");
        wrong("00030001000000fa3f0000000000000", "1\n");
        wrong("00030002000000fa3f0000003f", "900000\n");
        wrong("00030002000000fa3f0000003f80000", "1\n");
        wrong(HEX, "0\n");
        wrong(HEX, "\r\n");
    }
}

#[test]
fn behind_a_message() {
    for text in samples() {
        for tail in ["\n", "\0", "entry=1:", &text] {
            wrong_behind(&text, tail);
        }
        let long = |length: usize| format!("{text}{}", "\n".repeat(length - text.len()));
        wrong_behind(&text, &long(65_536)[text.len()..]);
        assert_eq!(first_wrong(long(65_537).as_bytes()), 65_536);
    }
    assert_eq!(first_wrong(&vec![0xff; 65_536]), 0);
    assert_eq!(first_wrong(&vec![0xff; 65_537]), 65_536);
    assert_eq!(first_wrong(&vec![0xff; 200_000]), 65_536);
}

#[test]
fn told_with_outcome_4_alone() {
    for outcome in Outcome::ALL {
        let place = if outcome == Outcome::BadMessage { 8 } else { 0 };
        assert_eq!(told(outcome, b"type=app"), place, "{outcome:?}");
    }
}

// ---- every truncation and every changed byte

#[test]
fn every_truncation_gives_its_length() {
    for text in samples() {
        assert_eq!(first_wrong(text.as_bytes()), 0, "{text}");
        (0..text.len()).for_each(|length| unfinished(&text[..length]));
    }
}

/// Also in a text as long as texts get: the places there are found line by line.
#[test]
fn long_texts() {
    let terms = (0..LIMIT).map(|index| 4_000_000_000 + index / 3);
    let lines: String = terms.map(|term| entry(term, 77)).collect();
    let head = append(0, 0, 1_024).replace("term=9", "term=4294967295");
    let text = format!("{head}1024\n{lines}");
    assert_eq!(first_wrong(text.as_bytes()), 0);
    for length in (0..text.len()).step_by(37) {
        unfinished(&text[..length]);
        let mut changed = text.clone().into_bytes();
        changed[length] = b'G';
        assert_eq!(first_wrong(&changed), length);
    }
    wrong_behind(&text, "\n");
}

/// Up to the place a text begins a message, and with one byte more it begins none.
#[test]
fn every_changed_byte_is_at_a_place() {
    for text in samples() {
        for (at, byte) in (0..text.len()).flat_map(|at| (0..=u8::MAX).map(move |byte| (at, byte))) {
            let mut changed = text.clone().into_bytes();
            changed[at] = byte;
            let place = first_wrong(&changed);
            if message::read(&changed).message.is_ok() {
                assert_eq!(place, 0);
                continue;
            }
            assert!(at <= place && place <= changed.len());
            let whole = message::read(&changed[..place]).message.is_ok();
            assert_eq!(first_wrong(&changed[..place]), if whole { 0 } else { place });
            assert_eq!(first_wrong(&changed[..changed.len().min(place + 1)]), place);
        }
    }
}

// ---- the definition, where every legal message that starts so can be listed

/// Texts that start alike, and legal messages that start so: for each way in which a legal message goes on in the next bytes, one.
struct Listed {
    start: String,
    /// How many bytes behind the start are listed.
    span: usize,
    legal: Vec<Vec<u8>>,
}

impl Listed {
    /// The legal ones of these endings.
    fn new(start: &str, span: usize, endings: impl Iterator<Item = String>) -> Listed {
        let texts = endings.map(|ending| format!("{start}{ending}").into_bytes());
        let mut legal: Vec<_> = texts.filter(|text| message::read(text).message.is_ok()).collect();
        legal.sort();
        assert!(!legal.is_empty());
        Listed { start: start.to_string(), span, legal }
    }

    /// The place, by the definition: the most bytes that a listed message has in common with the text. It is one of the text's
    /// neighbours in their order.
    fn place(&self, text: &[u8]) -> usize {
        let next = self.legal.partition_point(|legal| legal.as_slice() < text);
        if self.legal.get(next).is_some_and(|legal| legal == text) {
            return 0;
        }
        let alike = |legal: &Vec<u8>| legal.iter().zip(text).take_while(|(one, other)| one == other).count();
        self.legal[next.saturating_sub(1)..].iter().take(2).map(alike).max().expect("a neighbour")
    }

    /// Tries a listed message up to its span, with something wrong in it behind the start.
    fn try_one(&self, random: &mut Random) {
        let mut text = self.legal[random.below(self.legal.len())].clone();
        text.truncate(self.start.len() + self.span);
        for _ in 0..1 + random.below(2) {
            let at = self.start.len() + random.below(text.len() - self.start.len());
            let byte = b"0123456789abcf:\n=-"[random.below(18)];
            match random.below(4) {
                0 => text.insert(at, byte),
                1 if text.len() > self.start.len() + 1 => drop(text.remove(at)),
                2 if at > self.start.len() => text.truncate(at),
                _ => text[at] = byte,
            }
        }
        text.truncate(self.start.len() + self.span);
        assert_eq!(first_wrong(&text), self.place(&text), "{}", String::from_utf8_lossy(&text));
    }
}

struct Random(u64);

impl Random {
    fn below(&mut self, end: usize) -> usize {
        self.0 = self.0.wrapping_mul(6_364_136_223_846_793_005).wrapping_add(1_442_695_040_888_963_407);
        (self.0 >> 33) as usize % end
    }
}

fn pairs(first: u32, second: u32) -> impl Iterator<Item = (u32, u32)> {
    (0..=first).flat_map(move |one| (0..=second).map(move |other| (one, other)))
}

fn listed_heads() -> [Listed; 5] {
    let stops = |count: u32, term: u32| format!("entry={term}:0001{:028}\n", 0).repeat(count as usize);
    let yes = "type=vote-yes\nterm=12\nfrom=1\nto=2\nlast=1015\n";
    let behind = "type=append\nterm=12\nfrom=1\nto=2\nprev=1015\n";
    let appends = pairs(14, 12).flat_map(move |(prevterm, count)| {
        let entries = stops(count, prevterm.max(1));
        (0..=1_100)
            .map(move |chosen| format!("prevterm={prevterm}\nchosen={chosen}\ncount={count}\n{entries}"))
    });
    [
        Listed::new(
            "type=vote-no\nterm=3\n",
            20,
            pairs(99, 99).map(|(from, to)| format!("from={from}\nto={to}\n")),
        ),
        Listed::new(
            "type=vote-request\nterm=12\nfrom=1\nto=0\n",
            30,
            pairs(1_100, 130).map(|(last, ballot)| format!("last={last}\nballot={ballot}\n")),
        ),
        Listed::new(
            yes,
            20,
            pairs(130, 30)
                .map(|(ballot, count)| format!("ballot={ballot}\ncount={count}\n{}", stops(count, 1))),
        ),
        Listed::new(behind, 35, appends),
        Listed::new(
            &format!("{}chosen=95\n", append(0, 0, 0).split("chosen").next().expect("lines")),
            14,
            (0..=1_100).map(|count| format!("count={count}\n{}", stops(count, 1))),
        ),
    ]
}

#[test]
fn heads_are_wrong_where_the_definition_says() {
    let mut random = Random(207);
    for listed in listed_heads() {
        (0..20_000).for_each(|_| listed.try_one(&mut random));
    }
}

fn listed_entries() -> [Listed; 5] {
    let start = append(5, 87, 0).replace("term=9", "term=1234") + "1\n";
    let rest = |zeros: usize| "0".repeat(zeros);
    let kinds = (0..=0xffff).flat_map(|kind| {
        ["00000000", "00000001"].map(|duration| format!("{kind:04x}{duration}{}\n", "0".repeat(16)))
    });
    let lasting = move |duration: u32| format!("{duration:08x}{}\n", rest(16));
    [
        Listed::new(&start, 10, (0..20_000).map(|term| format!("entry={term}:0001{}\n", "0".repeat(28)))),
        Listed::new(
            &format!("{start}entry=100:"),
            4,
            (0..=0xffff).map(|motor| format!("{motor:04x}{}\n", "0".repeat(28))),
        ),
        Listed::new(&format!("{start}entry=100:0040"), 4, kinds),
        Listed::new(&format!("{start}entry=100:00010000"), 24, (0..=600_100).map(lasting)),
        Listed::new(&format!("{start}entry=100:00010001"), 8, (0..=600_100).map(lasting)),
    ]
}

#[test]
fn entries_are_wrong_where_the_definition_says() {
    let mut random = Random(208);
    for listed in listed_entries() {
        (0..20_000).for_each(|_| listed.try_one(&mut random));
    }
}
