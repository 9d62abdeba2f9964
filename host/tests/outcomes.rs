//! Each row of the table of outcomes, the order between them, the rules of each event, and the shortcuts that break a home.

mod common;
use common::*;

const ONE: At = At(3, 1);
const TWO: At = At(3, 2);

fn request(term: u32, from: u32, last: u32, ballot: u32) -> String {
    format!("type=vote-request\nterm={term}\nfrom={from}\nto=0\nlast={last}\nballot={ballot}\n")
}

fn yes(term: u32, from: u32, to: u32, last: u32, ballot: u32, entries: &[String]) -> String {
    let count = entries.len();
    let head = format!("type=vote-yes\nterm={term}\nfrom={from}\nto={to}\n");
    format!("{head}last={last}\nballot={ballot}\ncount={count}\n{}", entries.concat())
}

fn no(term: u32, from: u32, to: u32) -> String {
    format!("type=vote-no\nterm={term}\nfrom={from}\nto={to}\n")
}

fn append(term: u32, ft: [u32; 2], prev: u32, prevterm: u32, chosen: u32, entries: &[String]) -> String {
    let ([from, to], count) = (ft, entries.len());
    let head = format!("type=append\nterm={term}\nfrom={from}\nto={to}\nprev={prev}\n");
    format!("{head}prevterm={prevterm}\nchosen={chosen}\ncount={count}\n{}", entries.concat())
}

fn end(term: u32, from: u32, to: u32, end: u32) -> String {
    format!("type=append-yes\nterm={term}\nfrom={from}\nto={to}\nend={end}\n")
}

fn unfit(term: u32, from: u32, to: u32, length: u32) -> String {
    format!("type=append-no\nterm={term}\nfrom={from}\nto={to}\nlength={length}\n")
}

// ---- 1 to 3

#[test]
fn outcome_01_group_own_and_event() {
    let fresh = vec![0; STATE_SIZE];
    for n in 0..=9 {
        for own in 0..=9 {
            for event in 0..=7 {
                let known = [3, 5, 7].contains(&n) && 1 <= own && own <= n && (1..=5).contains(&event);
                let outcome = call(n, own, event, 0, 0, &fresh, b"", OUT_SIZE).outcome;
                assert_eq!(outcome != 1, known, "{n} {own} {event}");
            }
        }
    }
    for far in [1 << 8, 1 << 16, u32::MAX] {
        assert_eq!(call(far | 3, 1, START, 0, 0, &fresh, b"", OUT_SIZE).outcome, 1);
        assert_eq!(call(3, far | 1, START, 0, 0, &fresh, b"", OUT_SIZE).outcome, 1);
        assert_eq!(call(3, 1, far | 1, 0, 0, &fresh, b"", OUT_SIZE).outcome, 1);
    }
}

#[test]
fn outcome_02_length_at_every_event() {
    for event in 1..=5 {
        for size in [0, 56, STATE_SIZE - 20, STATE_SIZE - 1, STATE_SIZE + 1, STATE_SIZE + 20] {
            assert_eq!(call(3, 1, event, 2, 0, &vec![0; size], b"", OUT_SIZE).outcome, 2);
        }
    }
}

#[test]
fn outcome_03_short_output_at_every_event() {
    let (hub, leads) = (follower(1, 1, 0, &[1]).bytes(), leader(1, 0, &[1], &[1]).bytes());
    let input = bytes(HEX);
    let text = no(2, 2, 1);
    let short = |event, state, input| {
        let outcomes = [0, OUT_SIZE - 1, OUT_SIZE, OUT_SIZE + 1]
            .map(|room| call(3, 1, event, 2, 0, state, input, room).outcome);
        assert_eq!(outcomes, [3, 3, 0, 0], "event {event}");
    };
    short(START, &hub, b"");
    short(PROPOSE, &leads, &input);
    short(SEND, &leads, b"");
    short(RESTART, &hub, b"");
    short(RECEIVE, &hub, text.as_bytes());
}

// ---- 4 to 7

#[test]
fn outcome_04_bad_text() {
    refused(&ONE.receive(&Image::default(), ""), 4);
    refused(&ONE.receive(&Image::default(), &no(0, 2, 1)), 4);
    refused(&ONE.receive(&Image::default(), &"x".repeat(OUT_SIZE + 1)), 4);
    refused(&ONE.receive(&Image::default(), &(no(1, 2, 1) + &"\n".repeat(OUT_SIZE))), 4);
}

#[test]
fn outcome_05_address() {
    let fresh = Image::default();
    refused(&ONE.receive(&fresh, &no(1, 4, 1)), 5);
    refused(&ONE.receive(&fresh, &no(1, 1, 1)), 5);
    refused(&ONE.receive(&fresh, &no(1, 2, 3)), 5);
    refused(&ONE.receive(&fresh, &no(1, 2, 7)), 5);
    refused(&ONE.receive(&fresh, &request(1, 1, 0, 0)), 5);
    refused(&At(5, 1).receive(&fresh, &request(1, 6, 0, 0)), 5);
    done(&ONE.receive(&fresh, &no(1, 3, 1)), &follower(1, 0, 0, &[]), "");
    done(&At(5, 1).receive(&fresh, &no(1, 5, 1)), &follower(1, 0, 0, &[]), "");
    done(&At(7, 6).receive(&fresh, &no(1, 7, 6)), &follower(1, 0, 0, &[]), "");
}

#[test]
fn outcome_06_stale_and_its_two_replies() {
    let hub = follower(5, 3, 1, &[1, 3]);
    let stale = |text: &str| {
        let after = TWO.receive(&hub, text);
        (after.outcome, after.text)
    };
    assert_eq!(stale(&request(4, 1, 0, 0)), (6, no(5, 2, 1)));
    assert_eq!(stale(&request(5, 3, 9, 4)), (6, no(5, 2, 3)));
    assert_eq!(stale(&append(4, [3, 2], 0, 0, 0, &[])), (6, unfit(5, 2, 3, 2)));
    assert_eq!(stale(&yes(4, 1, 2, 0, 0, &[])), (6, String::new()));
    assert_eq!(stale(&no(4, 1, 2)), (6, String::new()));
    assert_eq!(stale(&end(4, 1, 2, 0)), (6, String::new()));
    assert_eq!(stale(&unfit(4, 1, 2, 0)), (6, String::new()));
}

#[test]
fn outcome_06_at_every_role() {
    for hub in [candidate(5, 1, &[1], &[2]), leader(5, 0, &[1], &[0, 1])] {
        let after = TWO.receive(&hub, &request(5, 1, 1, 4));
        assert_eq!((after.outcome, after.text), (6, no(5, 2, 1)));
        let after = TWO.receive(&hub, &append(4, [1, 2], 0, 0, 0, &[]));
        assert_eq!((after.outcome, after.text), (6, unfit(5, 2, 1, 1)));
    }
}

#[test]
fn outcome_07_append_at_leader() {
    refused(&TWO.receive(&leader(2, 0, &[1], &[0, 1]), &append(2, [1, 2], 0, 0, 0, &[])), 7);
}

#[test]
fn outcome_07_append_yes_beyond_length() {
    let leads = leader(2, 0, &[1, 2], &[2]);
    refused(&ONE.receive(&leads, &end(2, 2, 1, 3)), 7);
    done(&ONE.receive(&leads, &end(2, 2, 1, 2)), &leader(2, 2, &[1, 2], &[2, 2]), "");
    refused(&ONE.receive(&follower(2, 2, 0, &[1, 2]), &end(2, 2, 1, 3)), 13);
}

#[test]
fn outcome_07_vote_yes_for_another_request() {
    let asks = candidate(4, 2, &[1], &[1]);
    refused(&ONE.receive(&asks, &yes(4, 2, 1, 0, 2, &[])), 7);
    refused(&ONE.receive(&asks, &yes(4, 2, 1, 2, 2, &[])), 7);
    refused(&ONE.receive(&asks, &yes(4, 2, 1, 1, 3, &[])), 7);
    done(&ONE.receive(&asks, &yes(4, 2, 1, 1, 2, &[])), &Image { ballot: 4, ..leader(4, 0, &[1], &[1]) }, "");
    for hub in [follower(4, 2, 0, &[1]), leader(4, 0, &[1], &[1])] {
        refused(&ONE.receive(&hub, &yes(4, 2, 1, 0, 3, &[])), 13);
    }
}

#[test]
fn outcome_07_is_of_own_term_only() {
    done(&ONE.receive(&leader(2, 0, &[1], &[1]), &end(3, 2, 1, 9)), &follower(3, 2, 0, &[1]), "");
    done(&ONE.receive(&candidate(2, 1, &[1], &[1]), &yes(3, 2, 1, 9, 2, &[])), &follower(3, 1, 0, &[1]), "");
    let text = append(3, [2, 1], 0, 0, 0, &[entry(3, 5)]);
    let taken = Image { log: vec![(3, command(5))], ..follower(3, 3, 0, &[]) };
    done(&ONE.receive(&leader(2, 0, &[1], &[1]), &text), &taken, &end(3, 1, 2, 1));
}

// ---- 8 to 12

#[test]
fn outcome_08_role() {
    let leads = leader(1, 0, &[1], &[1]);
    refused(&ONE.start(&leads), 8);
    for hub in [Image::default(), follower(1, 1, 0, &[1]), candidate(2, 1, &[1], &[1])] {
        refused(&ONE.propose(&hub, &bytes(HEX)), 8);
        refused(&ONE.send(&hub, 2, 0), 8);
        assert_eq!(ONE.start(&hub).outcome, 0);
    }
    assert_eq!(ONE.propose(&leads, &bytes(HEX)).outcome, 0);
    assert_eq!(ONE.send(&leads, 2, 0).outcome, 0);
}

#[test]
fn outcome_10_command() {
    let leads = leader(1, 0, &[], &[]);
    refused(&ONE.propose(&leads, b""), 10);
    refused(&ONE.propose(&leads, &bytes(HEX)[..15]), 10);
    refused(&ONE.propose(&leads, &[&bytes(HEX)[..], &[0]].concat()), 10);
    refused(&ONE.propose(&leads, &[0; 16]), 10);
}

/// Kind, duration, and whether it may be proposed.
const PROPOSALS: [(u16, u32, bool); 10] = [
    (0, 0, true),
    (1, 1, false),
    (1, 19, false),
    (1, 20, true),
    (1, 256, true),
    (1, 275, true),
    (2, 1, false),
    (2, 19, false),
    (2, 20, true),
    (2, 600_000, true),
];

#[test]
fn outcome_10_too_short_to_feel() {
    for (kind, duration, felt) in PROPOSALS {
        let command = bytes(&format!("0003{kind:04x}{duration:08x}0000000000000000"));
        let outcome = ONE.propose(&leader(1, 0, &[], &[]), &command).outcome;
        assert_eq!(outcome, if felt { 0 } else { 10 }, "kind {kind}, {duration} ms");
    }
}

/// What may not be proposed any more is kept where it is, sent, taken and led with.
#[test]
fn short_commands_are_held() {
    for ms in 1..20 {
        let row = (1, command(ms));
        let held = Image { log: vec![row], ..follower(1, 1, 0, &[]) };
        let leads = Image { log: vec![row], ..leader(1, 0, &[], &[1]) };
        let text = append(1, [1, 2], 0, 0, 0, &[entry(1, ms)]);
        done(&ONE.send(&leads, 2, 0), &leads, &text);
        done(&TWO.receive(&follower(1, 0, 0, &[]), &text), &held, &end(1, 2, 1, 1));
        done(&TWO.event(RESTART, 0, 0, &held, b""), &held, "");
        let mut asks = candidate(2, 0, &[], &[1]);
        let vote = yes(2, 2, 1, 0, 0, &[]);
        asks.gathered = vec![row];
        let led = Image { log: vec![(2, row.1)], ..leader(2, 0, &[], &[1]) };
        done(&ONE.receive(&asks, &vote), &led, "");
    }
}

#[test]
fn outcome_12_send() {
    let leads = leader(4, 1, &[1, 3, 4], &[3, 3, 1, 0, 2]);
    let five = At(5, 1);
    for peer in [0, 1, 6, 7, u32::MAX] {
        refused(&five.send(&leads, peer, 0), 12);
    }
    refused(&five.send(&leads, 2, 4), 12);
    refused(&five.send(&leads, 2, u32::MAX), 12);
    let all = [entry(1, 1), entry(3, 2), entry(4, 3)];
    for (prev, prevterm) in [(0, 0), (1, 1), (2, 3), (3, 4)] {
        let text = append(4, [1, 5], prev, prevterm, 1, &all[prev as usize..]);
        done(&five.send(&leads, 5, prev), &leads, &text);
    }
}

#[test]
fn longest_messages() {
    let top = u32::MAX;
    let leads = leader(top, 1_024, &[top; 1_024], &[1_024, 1_024]);
    let after = ONE.send(&leads, 2, 0);
    done(
        &after,
        &leads,
        &append(top, [1, 2], 0, 0, 1_024, &(1..=1_024).map(|at| entry(top, at)).collect::<Vec<_>>()),
    );
    let taken = Image { role: FOLLOWER, confirmed: [0; 7], ..leads };
    done(&TWO.receive(&Image::default(), &after.text), &taken, &end(top, 2, 1, 1_024));
}

// ---- 13

#[test]
fn outcome_13_no_effect() {
    let hubs = [follower(3, 1, 1, &[1]), candidate(3, 1, &[1], &[1]), leader(3, 1, &[1], &[1, 1])];
    for hub in &hubs {
        refused(&ONE.receive(hub, &no(3, 2, 1)), 13);
        refused(&ONE.receive(hub, &unfit(3, 2, 1, 0)), 13);
        refused(&ONE.receive(hub, &end(3, 2, 1, 1)), 13);
        refused(&ONE.receive(hub, &end(3, 3, 1, 0)), 13);
    }
    for hub in [&hubs[0], &hubs[2]] {
        refused(&ONE.receive(hub, &yes(3, 2, 1, 1, 1, &[])), 13);
    }
    let leads = leader(3, 1, &[1, 3, 3], &[3, 2, 1]);
    for (from, length) in [(2, 0), (2, 1), (2, 2), (3, 0), (3, 1)] {
        refused(&ONE.receive(&leads, &end(3, from, 1, length)), 13);
    }
    let asks = candidate(3, 1, &[1], &[1, 2]);
    refused(&At(5, 1).receive(&asks, &yes(3, 2, 1, 1, 1, &[entry(1, 5)])), 13);
}

#[test]
fn higher_term_is_done_whatever_follows() {
    let mut asks = candidate(3, 1, &[1], &[1]);
    asks.gathered = vec![(2, command(5)), (1, command(6))];
    let hubs = [follower(3, 1, 0, &[1]), asks];
    for hub in &hubs {
        for text in [no(4, 2, 1), unfit(4, 2, 1, 0), end(4, 2, 1, 1), yes(4, 2, 1, 1, 1, &[entry(1, 5)])] {
            done(&ONE.receive(hub, &text), &follower(4, 1, 0, &[1]), "");
        }
    }
    let leads = leader(3, 1, &[1], &[1, 1]);
    done(&ONE.receive(&leads, &no(9, 2, 1)), &follower(9, 3, 1, &[1]), "");
    done(&ONE.receive(&leads, &no(u32::MAX, 2, 1)), &follower(u32::MAX, 3, 1, &[1]), "");
}

// ---- the order: of two faults the lower number wins

#[test]
fn order_of_the_gate() {
    let illegal = [1; STATE_SIZE];
    assert_eq!(call(4, 1, START, 0, 0, &illegal, b"", 0).outcome, 1);
    assert_eq!(call(3, 1, START, 0, 0, &illegal, b"", 0).outcome, 2);
    assert_eq!(call(3, 1, 6, 0, 0, &[], b"", 0).outcome, 1);
    assert_eq!(call(3, 1, RESTART, 0, 0, &illegal, b"", 0).outcome, 2);
    let fresh = [0; STATE_SIZE];
    let leads = leader(u32::MAX, 0, &[], &[]).bytes();
    assert_eq!(call(3, 1, RECEIVE, 0, 0, &fresh, b"", 0).outcome, 3);
    assert_eq!(call(3, 1, RECEIVE, 0, 0, &fresh, no(1, 4, 1).as_bytes(), 0).outcome, 3);
    assert_eq!(call(3, 1, START, 0, 0, &leads, b"", 0).outcome, 3);
    assert_eq!(call(3, 1, PROPOSE, 0, 0, &leads, b"", 0).outcome, 3);
    assert_eq!(call(3, 1, SEND, 0, 0, &leads, b"", 0).outcome, 3);
    assert_eq!(call(3, 1, PROPOSE, 0, 0, &fresh, b"", 0).outcome, 3);
}

#[test]
fn order_of_received_faults() {
    let leads = leader(5, 0, &[1], &[1]);
    // 4 before 5: an illegal text from nobody in the group.
    refused(&ONE.receive(&leads, &no(0, 4, 1)), 4);
    // 5 before 6: stale, and to another; no reply.
    refused(&ONE.receive(&leads, &append(4, [2, 3], 0, 0, 0, &[])), 5);
    refused(&ONE.receive(&leads, &request(5, 4, 0, 0)), 5);
    // 5 before 7 and before 13.
    refused(&ONE.receive(&leads, &append(5, [2, 3], 0, 0, 0, &[])), 5);
    refused(&ONE.receive(&leads, &no(5, 4, 1)), 5);
    // 6 before 7: an append at a leader, of an older term.
    assert_eq!(ONE.receive(&leads, &append(4, [2, 1], 0, 0, 0, &[])).outcome, 6);
    refused(&ONE.receive(&leads, &end(4, 2, 1, 2)), 6);
    // 7 before 13: an old voter's vote-yes for another request.
    refused(&At(5, 1).receive(&candidate(4, 2, &[1], &[1, 2]), &yes(4, 2, 1, 0, 2, &[])), 7);
}

#[test]
fn order_of_own_faults() {
    refused(&ONE.start(&leader(u32::MAX, 0, &[], &[])), 8);
    refused(&ONE.propose(&follower(1, 1, 0, &[1; 1_024]), b""), 8);
    refused(&ONE.send(&follower(1, 1, 0, &[]), 0, 9), 8);
    refused(&ONE.propose(&follower(1, 1, 0, &[1; 1_024]), &command(19)), 8);
    let full = leader(1, 0, &[1; 1_024], &[1_024]);
    refused(&ONE.propose(&full, b""), 10);
    refused(&ONE.propose(&full, &command(19)), 10);
    refused(&ONE.propose(&full, &command(20)), 11);
}

#[test]
fn unused_arguments_are_not_looked_at() {
    let odd = u32::MAX;
    let (hub, leads) = (follower(1, 1, 0, &[1]), leader(1, 0, &[1], &[1]));
    for (event, image) in [(START, &hub), (RESTART, &hub)] {
        assert_eq!(ONE.event(event, odd, odd, image, &[1; 20_000]), ONE.event(event, 0, 0, image, b""));
    }
    let send = |input| ONE.event(SEND, 2, 0, &leads, input);
    assert_eq!(send(&[1; 20_000]), send(b""));
    let propose = |a| ONE.event(PROPOSE, a, a, &leads, &bytes(HEX));
    assert_eq!(propose(odd), propose(0));
    let text = no(2, 2, 1);
    let receive = |a| ONE.event(RECEIVE, a, a, &hub, text.as_bytes());
    assert_eq!(receive(odd), receive(0));
}

// ---- the rules

#[test]
fn start_clears_and_keeps() {
    let mut asks = candidate(3, 2, &[1, 2], &[1, 4]);
    asks.chosen = 1;
    asks.gathered = vec![(2, command(7)), (1, command(8))];
    let again = Image { chosen: 1, ..candidate(4, 2, &[1, 2], &[1]) };
    done(&At(5, 1).start(&asks), &again, &request(4, 1, 2, 2));
    done(
        &At(7, 7).start(&follower(3, 3, 2, &[1, 2])),
        &Image { chosen: 2, ..candidate(4, 3, &[1, 2], &[7]) },
        &request(4, 7, 2, 3),
    );
}

#[test]
fn restart_keeps_the_kept() {
    let mut asks = candidate(3, 2, &[1, 2], &[1]);
    asks.chosen = 2;
    asks.gathered = vec![(2, command(7))];
    done(&ONE.event(RESTART, 0, 0, &asks, b""), &follower(3, 2, 2, &[1, 2]), "");
    let leads = leader(3, 1, &[1, 3], &[2, 1]);
    done(&ONE.event(RESTART, 0, 0, &leads, b""), &follower(3, 3, 1, &[1, 3]), "");
}

#[test]
fn vote_rule() {
    let held = follower(4, 3, 1, &[1, 2, 3]);
    let voted = follower(5, 3, 1, &[1, 2, 3]);
    let all = [entry(1, 1), entry(2, 2), entry(3, 3)];
    for (last, first) in [(0, 0), (1, 1), (2, 2), (3, 3), (4, 3), (257, 3), (1_024, 3)] {
        done(&TWO.receive(&held, &request(5, 1, last, 3)), &voted, &yes(5, 2, 1, last, 3, &all[first..]));
    }
    done(&TWO.receive(&held, &request(5, 1, 0, 4)), &voted, &yes(5, 2, 1, 0, 3, &all));
    done(&TWO.receive(&held, &request(5, 1, 9, 2)), &voted, &no(5, 2, 1));
    done(&TWO.receive(&held, &request(5, 1, 0, 0)), &voted, &no(5, 2, 1));
    let leads = leader(4, 0, &[1], &[0, 1]);
    done(&TWO.receive(&leads, &request(6, 3, 1, 4)), &follower(6, 4, 0, &[1]), &yes(6, 2, 3, 1, 4, &[]));
    done(&TWO.receive(&leads, &request(6, 3, 1, 3)), &follower(6, 4, 0, &[1]), &no(6, 2, 3));
}

#[test]
fn an_empty_log_says_yes() {
    let empty = follower(4, 3, 0, &[]);
    for (last, ballot) in [(0, 0), (0, 2), (7, 2), (0, 3), (257, 4), (1_024, 4)] {
        let asked = request(5, 1, last, ballot);
        done(&TWO.receive(&empty, &asked), &follower(5, 3, 0, &[]), &yes(5, 2, 1, last, 0, &[]));
    }
    let leads = leader(4, 0, &[], &[]);
    done(&TWO.receive(&leads, &request(6, 3, 0, 0)), &follower(6, 4, 0, &[]), &yes(6, 2, 3, 0, 0, &[]));
    // A candidate of ballot 0 takes it; and with an empty log too, a hub asks with its own ballot.
    done(&ONE.receive(&candidate(5, 0, &[], &[1]), &yes(5, 2, 1, 0, 0, &[])), &leader(5, 0, &[], &[]), "");
    done(&ONE.start(&empty), &candidate(5, 3, &[], &[1]), &request(5, 1, 0, 3));
    // Stale is stale.
    assert_eq!(TWO.receive(&empty, &request(4, 1, 0, 0)).outcome, 6);
}

#[test]
fn gathering() {
    let seven = At(7, 1);
    let asks = candidate(9, 6, &[1], &[1]);
    // The entries' own terms are not kept: the pair has the voter's ballot.
    let first = yes(9, 2, 1, 1, 4, &[entry(2, 20), entry(4, 21)]);
    let mut held = candidate(9, 6, &[1], &[1, 2]);
    held.gathered = vec![(4, command(20)), (4, command(21))];
    done(&seven.receive(&asks, &first), &held, "");
    // The greater ballot stays; a shorter vote-yes leaves the rest.
    let mut greater = held.clone();
    greater.voters[2] = 1;
    greater.gathered[0] = (5, command(30));
    done(&seven.receive(&held, &yes(9, 3, 1, 1, 5, &[entry(1, 30)])), &greater, "");
    // The held one if equal; places not yet held are taken.
    let mut longer = held.clone();
    longer.voters[2] = 1;
    longer.gathered.push((4, command(42)));
    let equal = yes(9, 3, 1, 1, 4, &[entry(1, 40), entry(1, 41), entry(1, 42)]);
    done(&seven.receive(&held, &equal), &longer, "");
    // A lesser ballot changes nothing but the voters, except past the end.
    let mut lesser = longer.clone();
    lesser.gathered[2].0 = 3;
    let text = yes(9, 3, 1, 1, 3, &[entry(1, 40), entry(1, 41), entry(1, 42)]);
    done(&seven.receive(&held, &text), &lesser, "");
    // Nothing to take from an empty log.
    let mut none = held.clone();
    none.voters[6] = 1;
    done(&seven.receive(&held, &yes(9, 7, 1, 1, 0, &[])), &none, "");
}

#[test]
fn majority_leads() {
    let mut asks = candidate(9, 6, &[1, 6], &[2, 3]);
    asks.chosen = 1;
    asks.gathered = vec![(4, command(20)), (5, command(21))];
    let mut leads = leader(9, 1, &[1, 6], &[]);
    leads.log.extend([(9, command(20)), (9, command(21)), (9, command(32))]);
    leads.confirmed[1] = 5;
    let text = yes(9, 5, 2, 2, 5, &[entry(1, 30), entry(1, 31), entry(2, 32)]);
    leads.log[2].1 = command(30);
    done(&At(5, 2).receive(&asks, &text), &leads, "");
    // The same two voters and one more are no majority of seven.
    let after = At(7, 2).receive(&asks, &text);
    assert_eq!((after.outcome, after.state[20]), (0, CANDIDATE));
}

#[test]
fn gathering_fills_the_log() {
    let asks = candidate(2, 1, &[1; 1_018], &[1]);
    let text = yes(2, 3, 1, 1_018, 1, &[1_019, 1_020, 1_021, 1_022, 1_023, 1_024].map(|at| entry(1, at)));
    let mut terms = vec![1; 1_018];
    terms.extend([2; 6]);
    done(&ONE.receive(&asks, &text), &leader(2, 0, &terms, &[1_024]), "");
}

#[test]
fn append_fits_or_not() {
    let held = follower(5, 4, 1, &[1, 2, 4]);
    let fits = |prev, prevterm, entries: &[String]| {
        TWO.receive(&held, &append(5, [3, 2], prev, prevterm, 0, entries))
    };
    let new = [entry(5, 50), entry(5, 51), entry(5, 52)];
    let taken = |terms: &[u32], numbers: &[u32]| {
        let mut image = follower(5, 5, 1, &[]);
        image.log = terms.iter().zip(numbers).map(|(&term, &number)| (term, command(number))).collect();
        image
    };
    done(&fits(0, 0, &new), &taken(&[5, 5, 5], &[50, 51, 52]), &end(5, 2, 3, 3));
    done(&fits(1, 1, &new), &taken(&[1, 5, 5, 5], &[1, 50, 51, 52]), &end(5, 2, 3, 4));
    done(&fits(2, 2, &new[..1]), &taken(&[1, 2, 5], &[1, 2, 50]), &end(5, 2, 3, 3));
    done(&fits(3, 4, &[]), &taken(&[1, 2, 4], &[1, 2, 3]), &end(5, 2, 3, 3));
    for unfits in
        [fits(0, 0, &new[..2]), fits(2, 1, &new), fits(2, 3, &new), fits(4, 4, &new), fits(2, 2, &[])]
    {
        done(&unfits, &held, &unfit(5, 2, 3, 3));
    }
}

#[test]
fn append_at_the_same_ballot() {
    let held = follower(5, 5, 1, &[1, 2, 5]);
    let receive = |prev, prevterm, chosen, entries: &[String]| {
        TWO.receive(&held, &append(5, [3, 2], prev, prevterm, chosen, entries))
    };
    let new = [entry(5, 50), entry(5, 51), entry(5, 52)];
    // No longer than the log: the log stays, whatever the entries are.
    done(&receive(0, 0, 0, &new[..2]), &held, &end(5, 2, 3, 2));
    done(&receive(0, 0, 0, &new), &held, &end(5, 2, 3, 3));
    done(&receive(0, 0, 0, &[]), &held, &end(5, 2, 3, 0));
    // The greater chosen.
    done(&receive(0, 0, 2, &new[..2]), &follower(5, 5, 2, &[1, 2, 5]), &end(5, 2, 3, 2));
    // Longer: replaced after prev.
    let mut longer = follower(5, 5, 1, &[1, 2]);
    longer.log.extend([(5, command(50)), (5, command(51)), (5, command(52))]);
    done(&receive(2, 2, 0, &new), &longer, &end(5, 2, 3, 5));
    // The entry at prev decides here too.
    done(&receive(2, 3, 0, &new), &held, &unfit(5, 2, 3, 3));
    done(&receive(4, 5, 0, &new), &held, &unfit(5, 2, 3, 3));
}

#[test]
fn append_makes_a_candidate_a_follower() {
    let mut asks = candidate(5, 4, &[1, 2], &[2]);
    asks.gathered = vec![(3, command(70)), (3, command(71))];
    let mut taken = follower(5, 5, 0, &[1, 2]);
    taken.log.push((5, command(50)));
    done(&TWO.receive(&asks, &append(5, [3, 2], 2, 2, 0, &[entry(5, 50)])), &taken, &end(5, 2, 3, 3));
    let gone = follower(5, 4, 0, &[1, 2]);
    done(&TWO.receive(&asks, &append(5, [3, 2], 0, 0, 0, &[])), &gone, &unfit(5, 2, 3, 2));
}

#[test]
fn append_of_a_higher_term() {
    let held = follower(5, 5, 1, &[1, 5]);
    done(
        &TWO.receive(&held, &append(7, [3, 2], 2, 5, 2, &[])),
        &follower(7, 7, 2, &[1, 5]),
        &end(7, 2, 3, 2),
    );
    // The ballot is no longer the term's, so a shorter one does not fit.
    done(
        &TWO.receive(&held, &append(7, [3, 2], 1, 1, 1, &[])),
        &follower(7, 5, 1, &[1, 5]),
        &unfit(7, 2, 3, 2),
    );
}

#[test]
fn chosen_by_majority() {
    let terms = [1, 1, 3, 3, 3];
    let five = At(5, 2);
    let chosen = |from, length, before: &[u32], was| {
        let leads = leader(3, was, &terms, before);
        let after = Image::read(&five.receive(&leads, &end(3, from, 2, length)).state).unwrap();
        assert_eq!(after.confirmed[from as usize - 1], length);
        after.chosen
    };
    assert_eq!(chosen(1, 4, &[0, 5, 0, 0, 0], 0), 0);
    assert_eq!(chosen(1, 4, &[0, 5, 3, 0, 0], 0), 3);
    assert_eq!(chosen(1, 2, &[0, 5, 3, 0, 0], 0), 2);
    assert_eq!(chosen(1, 2, &[1, 5, 3, 1, 1], 2), 2);
    assert_eq!(chosen(4, 5, &[5, 5, 3, 1, 4], 4), 5);
    assert_eq!(chosen(5, 1, &[0, 5, 0, 0, 0], 2), 2);
    // An older term's entry counts too: its ballot is the present one.
    assert_eq!(chosen(5, 1, &[0, 5, 1, 0, 0], 0), 1);
}

#[test]
fn propose_adds_at_the_end() {
    let leads = leader(3, 1, &[1, 2], &[1, 0, 0, 0, 2]);
    let mut after = leads.clone();
    after.log.push((3, command(90)));
    after.confirmed[4] = 3;
    done(&At(5, 5).propose(&leads, &command(90)), &after, "");
}

// ---- shortcuts that break a home

#[test]
fn shortcut_last_terms_in_votes() {
    let mut held = follower(4, 4, 2, &[1, 2]);
    held.log[1].1 = command(77);
    let after = At(5, 2).receive(&held, &request(5, 5, 2, 3));
    done(&after, &Image { term: 5, ..held }, &no(5, 2, 5));
}

#[test]
fn shortcut_cutting_a_longer_log() {
    let held = follower(4, 4, 0, &[1, 2, 4]);
    let older = append(5, [1, 2], 1, 1, 0, &[entry(5, 50)]);
    done(&At(5, 2).receive(&held, &older), &follower(5, 4, 0, &[1, 2, 4]), &unfit(5, 2, 1, 3));
    let same = append(4, [1, 2], 1, 1, 0, &[entry(2, 2)]);
    done(&At(5, 2).receive(&held, &same), &held, &end(4, 2, 1, 2));
}

#[test]
fn shortcut_repeated_vote() {
    let five = At(5, 1);
    let text = yes(1, 2, 1, 0, 0, &[]);
    let held = candidate(1, 0, &[], &[1, 2]);
    done(&five.receive(&candidate(1, 0, &[], &[1]), &text), &held, "");
    refused(&five.receive(&held, &text), 13);
}

#[test]
fn shortcut_negative_duration() {
    let leads = leader(1, 0, &[], &[]);
    for hex in [
        "00030001ffffffff3f00000000000000",
        "00030002ffffffff3f0000003f000000",
        "00030000ffffffff0000000000000000",
    ] {
        refused(&ONE.propose(&leads, &bytes(hex)), 10);
    }
}
