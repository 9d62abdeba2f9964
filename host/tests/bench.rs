//! The twelve cases of rule R39, by number, and the whole append of rule R28.

mod common;
use common::*;
use independent::message::{self, Entries};

const ONE: At = At(3, 1);
const TWO: At = At(3, 2);
const REQUEST: &str = "type=vote-request\nterm=1\nfrom=1\nto=0\nlast=0\nballot=0\n";
const YES: &str = "type=vote-yes\nterm=1\nfrom=2\nto=1\nlast=0\nballot=0\ncount=0\n";
const END: &str = "type=append-yes\nterm=1\nfrom=2\nto=1\nend=1\n";

fn log_of_one() -> Vec<(u32, Command)> {
    vec![(1, bytes(HEX))]
}

#[test]
fn fresh_is_all_zero() {
    assert_eq!(Image::default().bytes(), vec![0; 20_536]);
}

#[test]
fn case_01_fresh_hub_starts() {
    done(&ONE.start(&Image::default()), &candidate(1, 0, &[], &[1]), REQUEST);
}

#[test]
fn case_02_fresh_hub_votes() {
    done(&TWO.receive(&Image::default(), REQUEST), &follower(1, 0, 0, &[]), YES);
}

#[test]
fn case_03_majority_leads() {
    done(&ONE.receive(&candidate(1, 0, &[], &[1]), YES), &leader(1, 0, &[], &[]), "");
}

#[test]
fn case_04_vote_again() {
    refused(&ONE.receive(&leader(1, 0, &[], &[]), YES), 13);
}

#[test]
fn case_05_append() {
    let after = Image { log: log_of_one(), ..follower(1, 1, 0, &[]) };
    done(&TWO.receive(&follower(1, 0, 0, &[]), APPEND), &after, END);
}

#[test]
fn case_06_append_again() {
    let held = Image { log: log_of_one(), ..follower(1, 1, 0, &[]) };
    done(&TWO.receive(&held, APPEND), &held, END);
}

#[test]
fn case_07_confirmed_by_majority() {
    let leads = leader(1, 0, &[], &[]);
    let mut proposed = Image { log: log_of_one(), ..leads.clone() };
    proposed.confirmed[0] = 1;
    done(&ONE.propose(&leads, &bytes(HEX)), &proposed, "");
    done(&ONE.send(&proposed, 2, 0), &proposed, APPEND);
    let mut confirmed = Image { chosen: 1, ..proposed.clone() };
    confirmed.confirmed[1] = 1;
    done(&ONE.receive(&proposed, END), &confirmed, "");
}

#[test]
fn case_08_last_term() {
    let last = candidate(u32::MAX, 0, &[], &[1]);
    let request = "type=vote-request\nterm=4294967295\nfrom=1\nto=0\nlast=0\nballot=0\n";
    done(&ONE.start(&follower(u32::MAX - 1, 0, 0, &[])), &last, request);
    refused(&ONE.start(&last), 9);
    refused(&ONE.start(&follower(u32::MAX, 0, 0, &[])), 9);
}

#[test]
fn case_09_full_log() {
    let before = leader(1, 0, &[1; 1_023], &[1_023]);
    let mut full = leader(1, 0, &[1; 1_024], &[1_024]);
    full.log[1_023].1 = bytes(HEX);
    done(&ONE.propose(&before, &bytes(HEX)), &full, "");
    refused(&ONE.propose(&full, &bytes(HEX)), 11);
}

fn proposal_outcome(hex: &str) -> u32 {
    ONE.propose(&leader(1, 0, &[], &[]), &bytes(hex)).outcome
}

#[test]
fn case_10_durations() {
    assert_eq!(proposal_outcome("00030001000927c03f00000000000000"), 0);
    assert_eq!(proposal_outcome("00030001000927c13f00000000000000"), 10);
    assert_eq!(proposal_outcome("00030001ffffffff3f00000000000000"), 10);
}

#[test]
fn case_11_gains() {
    assert_eq!(proposal_outcome("00030001000000fa3f80000000000000"), 0);
    assert_eq!(proposal_outcome("00030001000000fa3f80000100000000"), 10);
    assert_eq!(proposal_outcome("00030001000000fa8000000000000000"), 10);
}

#[test]
fn case_12_older_log_is_not_cut() {
    let held = follower(1, 1, 0, &[1, 1]);
    let head = "type=append\nterm=2\nfrom=1\nto=2\nprev=0\nprevterm=0\nchosen=0\n";
    let short = format!("{head}count=1\n{}", entry(2, 9));
    let no = "type=append-no\nterm=2\nfrom=2\nto=1\nlength=2\n";
    done(&TWO.receive(&held, &short), &follower(2, 1, 0, &[1, 1]), no);
    let long = format!("{head}count=2\n{}{}", entry(2, 9), entry(2, 8));
    let taken = Image { log: vec![(2, command(9)), (2, command(8))], ..follower(2, 2, 0, &[]) };
    let yes = "type=append-yes\nterm=2\nfrom=2\nto=1\nend=2\n";
    done(&TWO.receive(&held, &long), &taken, yes);
}

#[test]
fn whole_append_read_and_written_back() {
    let reading = message::read(APPEND.as_bytes());
    let message = reading.message.unwrap();
    assert_eq!(reading.entries, format!("entry=1:{HEX}\n").as_bytes());
    assert_eq!(reading.entries.as_ptr_range().end, APPEND.as_bytes().as_ptr_range().end);
    let entries: Vec<_> = Entries::new(reading.entries).collect();
    assert_eq!(entries.len(), 1);
    assert_eq!((entries[0].term.0, entries[0].command), (1, bytes(HEX)));
    let mut out = vec![0xa5; OUT_SIZE];
    let answer = message::write(&message, Entries::new(reading.entries), &mut out);
    assert_eq!((answer.outcome.number(), answer.written), (0, APPEND.len()));
    assert_eq!(&out[..APPEND.len()], APPEND.as_bytes());
    assert!(out[APPEND.len()..].iter().all(|&byte| byte == 0xa5));
}
