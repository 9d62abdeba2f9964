//! What a hub reports: the proved library hands over what the independent program says, at places 1 to chosen and no others.

use compare::binding::call::{PROPOSE, RECEIVE, START};
use compare::binding::watched::Watched;
use compare::binding::{Answer, chosen, reported, sizes};
use image::{HEAD_SIZE, STATE_SIZE, lost_parts};
use independent::{Group, LIMIT, Outcome, state, step};

const BUZZ: [u8; 16] = [0, 3, 0, 1, 0, 0, 0, 250, 0x3f, 0, 0, 0, 0, 0, 0, 0];
const STOP: [u8; 16] = [0, 9, 0, 0, 0, 0, 0, 0, 0, 0, 0, 0, 0, 0, 0, 0];

/// Takes a step of hub 1 of 3 that has to take effect.
fn take(bytes: &mut [u8], event: u32, input: &[u8]) {
    let mut out = vec![0; 65_536];
    let answer = step::step(3, 1, event, 2, 0, bytes, input, &mut out);
    assert_eq!(answer.outcome, Outcome::Done, "event {event}");
}

/// Hub 1 of 3 leads with three commands, of which two are chosen.
fn leader() -> Vec<u8> {
    let mut bytes = vec![0; STATE_SIZE];
    take(&mut bytes, START, b"");
    take(&mut bytes, RECEIVE, b"type=vote-yes\nterm=1\nfrom=2\nto=1\nlast=0\nballot=0\ncount=0\n");
    for command in [BUZZ, STOP, BUZZ] {
        take(&mut bytes, PROPOSE, &command);
    }
    take(&mut bytes, RECEIVE, b"type=append-yes\nterm=1\nfrom=2\nto=1\nend=2\n");
    bytes
}

fn ask(bytes: &[u8], place: u32, room: usize) -> (Outcome, Vec<u8>) {
    let mut out = Watched::new(&vec![7; room]);
    let outcome = reported(bytes, place, out.lend());
    (outcome, out.bytes().to_vec())
}

#[test]
fn sizes_are_those_of_the_layout() {
    assert_eq!(sizes(), (STATE_SIZE, LIMIT, 65_536));
}

#[test]
fn places_up_to_chosen_are_reported() {
    let bytes = leader();
    let group = Group::new(3, 1).expect("a group");
    let expected: Vec<_> = state::reported(&bytes, group).expect("a legal state").copied().collect();
    assert_eq!(expected, [BUZZ, STOP]);
    assert_eq!(chosen(&bytes), Answer::new(Outcome::Done, 2));
    for (index, command) in expected.iter().enumerate() {
        let whole = [&command[..], &[7; 4]].concat();
        assert_eq!(ask(&bytes, index as u32 + 1, 20), (Outcome::Done, whole));
    }
}

#[test]
fn nothing_else_is_reported() {
    let bytes = leader();
    for place in [0, 3, 4, 256, 1_024, 1_025, u32::MAX] {
        assert_eq!(ask(&bytes, place, 16), (Outcome::OutOfRange, vec![7; 16]));
    }
    assert_eq!(chosen(&vec![0; STATE_SIZE]), Answer::new(Outcome::Done, 0));
    assert_eq!(ask(&vec![0; STATE_SIZE], 1, 16), (Outcome::OutOfRange, vec![7; 16]));
}

#[test]
fn refusals_come_in_order() {
    let bytes = leader();
    assert_eq!(ask(&bytes, 1, 15), (Outcome::ShortOutput, vec![7; 15]));
    assert_eq!(ask(&bytes, 9, 15), (Outcome::ShortOutput, vec![7; 15]));
    assert_eq!(ask(&bytes[1..], 1, 15), (Outcome::BadState, vec![7; 15]));
    let mut damaged = bytes.clone();
    damaged[HEAD_SIZE + 5] = 0; // place 1's motor
    assert_eq!(ask(&damaged, 1, 16), (Outcome::BadState, vec![7; 16]));
    assert_eq!(chosen(&damaged), Answer::new(Outcome::BadState, 0));
}

#[test]
fn the_lost_parts_are_not_looked_at() {
    let mut bytes = leader();
    lost_parts(&bytes).into_iter().for_each(|part| bytes[part].fill(0xff));
    assert_eq!(chosen(&bytes), Answer::new(Outcome::Done, 2));
    assert_eq!(ask(&bytes, 2, 16), (Outcome::Done, STOP.to_vec()));
}
