//! The checker itself: each thing that it has to object to is put before it once, by hand, after a start to which it has no objection.

use compare::binding::call::{PROPOSE, RECEIVE, RESTART, START};
use compare::checker::paxos::{Machine, Refusal};
use compare::checker::{Checker, Deed, Reason};
use image::{CANDIDATE, FOLLOWER, Image, LEADER, lost_parts, row_at};
use independent::{Hub, Outcome, Term};

/// A command for each number.
fn command(number: u8) -> [u8; 16] {
    [0, number, 0, 0, 0, 0, 0, 0, 0, 0, 0, 0, 0, 0, 0, 0]
}

/// A state's bytes; the log has the commands of these numbers, all of term 1. The checker does not look at the other parts.
fn state(role: u8, term: u32, ballot: u32, chosen: u32, log: &[u8]) -> Vec<u8> {
    let log = log.iter().map(|&number| (1, command(number))).collect();
    Image { term, ballot, chosen, role, log, ..Image::default() }.bytes()
}

/// The text of a message to hub 1 with these further lines.
fn text(kind: &str, term: u32, from: u32, lines: &str) -> String {
    format!("type={kind}\nterm={term}\nfrom={from}\nto=1\n{}", lines.replace(' ', "\n") + "\n")
}

/// What a hub comes to that hears nothing and writes nothing: the outcome, with this state before and after it.
fn deed(outcome: Outcome, state: &[u8]) -> Deed<'_> {
    let (hub, event, input, damaged, place, text) = (Hub(1), RECEIVE, b"", false, 0, b"");
    Deed { hub, event, input, damaged, outcome, place, lent: state, left: state, stored: state, text }
}

/// A home of three under the checker's eyes.
struct Watch(Checker);

impl Watch {
    fn see(&mut self, hub: u32, event: u32, input: &[u8], state: &[u8], text: &str) -> Result<(), Reason> {
        let text = text.as_bytes();
        self.0.see(&Deed { hub: Hub(hub), event, input, text, ..deed(Outcome::Done, state) })
    }

    /// Something happens to a hub that writes nothing.
    fn silent(&mut self, hub: u32, state: &[u8]) -> Result<(), Reason> {
        self.see(hub, RECEIVE, b"", state, "")
    }

    /// Hub 1 asks at term 1, hub 2 says yes.
    fn asked(mut self) -> Watch {
        self.see(1, START, b"", &state(CANDIDATE, 1, 0, 0, &[]), "").unwrap();
        let yes = text("vote-yes", 1, 2, "last=0 ballot=0 count=0");
        self.see(2, RECEIVE, b"", &state(FOLLOWER, 1, 0, 0, &[]), &yes).unwrap();
        self
    }

    /// Hub 1 leads and has command 5, hub 2 has taken it: it is chosen.
    fn chosen(self) -> Watch {
        let mut watch = self.asked();
        watch.silent(1, &state(LEADER, 1, 1, 0, &[])).unwrap();
        watch.see(1, PROPOSE, &command(5), &state(LEADER, 1, 1, 0, &[5]), "").unwrap();
        let end = text("append-yes", 1, 2, "end=1");
        watch.see(2, RECEIVE, b"", &state(FOLLOWER, 1, 1, 0, &[5]), &end).unwrap();
        watch
    }
}

fn fresh() -> Watch {
    Watch(Checker::new(3))
}

fn machine(refusal: Refusal) -> Result<(), Reason> {
    Err(Reason::Machine(refusal))
}

// ---- MultiPaxos

#[test]
fn promises_are_not_lowered() {
    let lowered = fresh().asked().silent(2, &state(FOLLOWER, 0, 0, 0, &[]));
    assert_eq!(lowered, machine(Refusal::PromiseLowered));
}

#[test]
fn reports_are_at_the_promised_ballot() {
    let mut machine = Machine::new(3);
    machine.raise(Hub(1), Term(2)).unwrap();
    assert_eq!(machine.report(Hub(1), Term(1)), Err(Refusal::ReportNotPromised));
    assert_eq!(machine.report(Hub(1), Term(2)), Ok(()));
}

#[test]
fn proposals_need_a_majority() {
    let mut watch = fresh();
    watch.see(1, START, b"", &state(CANDIDATE, 1, 0, 0, &[]), "").unwrap();
    let alone = watch.see(1, PROPOSE, &command(5), &state(LEADER, 1, 1, 0, &[5]), "");
    assert_eq!(alone, machine(Refusal::NoMajorityReported));
}

#[test]
fn proposals_are_asked_for() {
    let made_up = fresh().asked().silent(1, &state(LEADER, 1, 1, 0, &[5]));
    assert_eq!(made_up, machine(Refusal::NotAskedFor));
}

#[test]
fn proposals_are_the_highest_vote() {
    let mut watch = fresh().chosen();
    watch.see(3, START, b"", &state(CANDIDATE, 2, 0, 0, &[]), "").unwrap();
    let yes = text("vote-yes", 2, 2, &format!("last=0 ballot=1 count=1 entry=1:0005{:028}", 0));
    watch.see(2, RECEIVE, b"", &state(FOLLOWER, 2, 1, 0, &[5]), &yes).unwrap();
    let other = watch.see(3, PROPOSE, &command(6), &state(LEADER, 2, 2, 0, &[6]), "");
    assert_eq!(other, machine(Refusal::NotTheHighestVote));
    assert_eq!(watch.silent(3, &state(LEADER, 2, 2, 0, &[5])), Ok(()));
}

#[test]
fn proposals_are_made_once() {
    let mut watch = fresh().chosen();
    let changed = watch.see(1, PROPOSE, &command(6), &state(LEADER, 1, 1, 0, &[6]), "");
    assert_eq!(changed, machine(Refusal::SecondProposal));
}

#[test]
fn votes_are_for_proposals() {
    let mut watch = fresh().chosen();
    assert_eq!(watch.silent(3, &state(FOLLOWER, 1, 1, 0, &[6])), machine(Refusal::VoteWithoutProposal));
    assert_eq!(watch.silent(3, &state(FOLLOWER, 1, 1, 0, &[5])), Ok(()));
}

#[test]
fn votes_are_not_below_a_promise() {
    let mut watch = fresh().chosen();
    assert_eq!(watch.silent(3, &state(FOLLOWER, 2, 1, 0, &[5])), machine(Refusal::VoteBelowPromise));
}

#[test]
fn votes_are_not_forgotten() {
    for state in [state(FOLLOWER, 1, 1, 0, &[]), state(FOLLOWER, 1, 0, 0, &[5])] {
        assert_eq!(fresh().chosen().see(2, RESTART, b"", &state, ""), Err(Reason::VoteForgotten));
    }
}

// ---- messages

/// What the checker says to a text that hub 2, which has taken command 5 at ballot 1, writes now.
fn says(term: u32, text: &str) -> Result<(), Reason> {
    fresh().chosen().see(2, RECEIVE, b"", &state(FOLLOWER, term, 1, 0, &[5]), text)
}

#[test]
fn messages_are_their_writers() {
    assert_eq!(says(1, &text("append-no", 1, 2, "length=1")), Ok(()));
    assert_eq!(says(1, &text("append-no", 1, 3, "length=1")), Err(Reason::NotItsOwn));
    assert_eq!(says(1, &text("append-no", 2, 2, "length=1")), Err(Reason::NotItsOwn));
    assert_eq!(says(1, "type=vote-maybe\n"), Err(Reason::NoImage));
}

#[test]
fn votes_tell_what_was_voted() {
    let entry = |number: u8| format!("entry=1:{number:04x}{:028}", 0);
    let yes = |lines: &str| says(2, &text("vote-yes", 2, 2, lines));
    assert_eq!(yes(&format!("last=0 ballot=1 count=1 {}", entry(5))), Ok(()));
    assert_eq!(yes("last=1 ballot=1 count=0"), Ok(()));
    assert_eq!(yes("last=0 ballot=1 count=0"), Err(Reason::UntrueReport));
    assert_eq!(yes("last=1 ballot=0 count=0"), Err(Reason::UntrueReport));
    assert_eq!(yes(&format!("last=0 ballot=1 count=1 {}", entry(6))), Err(Reason::UntrueReport));
    assert_eq!(yes(&format!("last=1 ballot=1 count=1 {}", entry(5))), Err(Reason::UntrueReport));
}

#[test]
fn appends_carry_proposals() {
    let append = |number: u8, chosen: u32| {
        let lines = format!("prev=0 prevterm=0 chosen={chosen} count=1 entry=1:{number:04x}{:028}", 0);
        says(1, &text("append", 1, 2, &lines))
    };
    assert_eq!(append(5, 1), Ok(()));
    assert_eq!(append(6, 0), Err(Reason::AppendNotProposed));
    assert_eq!(append(5, 2), Err(Reason::AppendNotChosen));
}

#[test]
fn ends_are_voted_for() {
    assert_eq!(says(1, &text("append-yes", 1, 2, "end=1")), Ok(()));
    assert_eq!(says(1, &text("append-yes", 1, 2, "end=2")), Err(Reason::AcknowledgedWithoutVote));
    assert_eq!(says(2, &text("append-yes", 2, 2, "end=1")), Err(Reason::AcknowledgedWithoutVote));
}

// ---- a step alone

#[test]
fn refusals_change_nothing_and_only_stale_ones_write() {
    let [state, other] = [0, 1].map(|term| state(FOLLOWER, term, 0, 0, &[]));
    let writes = text("append-no", 0, 1, "length=0");
    for outcome in [Outcome::Stale, Outcome::WrongRole, Outcome::LogFull, Outcome::NothingNew] {
        let refused = deed(outcome, &state);
        let changed = Deed { left: &other, ..refused };
        assert_eq!(Checker::new(3).see(&changed), Err(Reason::RefusalActs));
        assert_eq!(Checker::of_machine(3).see(&changed), Ok(()));
        let answered = Checker::new(3).see(&Deed { text: writes.as_bytes(), ..refused });
        let expected = if outcome == Outcome::Stale { Ok(()) } else { Err(Reason::RefusalActs) };
        assert_eq!(answered, expected);
    }
}

/// What the checker says to a restart of hub 2, which has taken command 5, from its bytes with anything in the lost parts.
fn restarts(outcome: Outcome, left: &[u8]) -> Result<(), Reason> {
    let mut lent = state(FOLLOWER, 1, 1, 0, &[5]);
    lost_parts(&lent).into_iter().for_each(|part| lent[part].fill(0xff));
    let lent = &lent[..];
    fresh().chosen().0.see(&Deed { hub: Hub(2), event: RESTART, lent, ..deed(outcome, left) })
}

#[test]
fn restarts_leave_what_was_kept() {
    let kept = state(FOLLOWER, 1, 1, 0, &[5]);
    assert_eq!(restarts(Outcome::Done, &kept), Ok(()));
    let mut behind = kept.clone();
    behind[row_at(1_024)] = 1;
    let others = [state(LEADER, 1, 1, 0, &[5]), state(FOLLOWER, 2, 1, 0, &[5]), behind];
    for other in others {
        assert_eq!(restarts(Outcome::Done, &other), Err(Reason::NotWhatWasKept));
    }
    assert_eq!(restarts(Outcome::BadState, &kept), Err(Reason::RefusalActs));
    let refused = Deed { event: RESTART, ..deed(Outcome::BadState, &kept) };
    assert_eq!(Checker::new(3).see(&refused), Err(Reason::NotWhatWasKept));
}

#[test]
fn damaged_texts_are_refused_for_that() {
    let state = state(FOLLOWER, 0, 0, 0, &[]);
    for outcome in Outcome::ALL {
        let expected = if outcome == Outcome::BadMessage { Ok(()) } else { Err(Reason::DamageTaken) };
        assert_eq!(Checker::new(3).see(&Deed { damaged: true, ..deed(outcome, &state) }), expected);
    }
}

/// Only the length of a cut text is its place, and only with outcome 4 there is one.
#[test]
fn places_are_where_texts_are_wrong() {
    let state = state(FOLLOWER, 0, 0, 0, &[]);
    let sees = |outcome, place| {
        let damaged = outcome == Outcome::BadMessage;
        Checker::new(3).see(&Deed { input: b"type=app", damaged, place, ..deed(outcome, &state) })
    };
    for place in 0..10 {
        let cut = if place == 8 { Ok(()) } else { Err(Reason::WrongPlace) };
        assert_eq!(sees(Outcome::BadMessage, place), cut);
        let late = if place == 0 { Ok(()) } else { Err(Reason::WrongPlace) };
        assert_eq!(sees(Outcome::Stale, place), late);
    }
}

// ---- outcomes and reports

#[test]
fn honest_hubs_refuse_no_honest_message() {
    let state = state(FOLLOWER, 0, 0, 0, &[]);
    for outcome in Outcome::ALL {
        let refused = matches!(outcome.number(), 1..=5 | 7);
        let expected = if refused { Err(Reason::Refused(outcome)) } else { Ok(()) };
        assert_eq!(Checker::new(3).see(&deed(outcome, &state)), expected);
        assert_eq!(Checker::new(3).hear(outcome), expected);
        assert_eq!(Checker::of_reports().hear(outcome), Ok(()));
    }
    assert_eq!(fresh().silent(1, &state[1..]), Err(Reason::NoImage));
}

#[test]
fn what_is_reported_is_chosen() {
    let mut watch = fresh().chosen();
    assert_eq!(watch.silent(1, &state(LEADER, 1, 1, 1, &[5])), Ok(()));
    watch.see(1, PROPOSE, &command(6), &state(LEADER, 1, 1, 1, &[5, 6]), "").unwrap();
    assert_eq!(watch.silent(1, &state(LEADER, 1, 1, 2, &[5, 6])), Err(Reason::ReportedNotChosen));
}

/// A home of which nothing but the reports is looked at, after hub 1 has reported command 5.
fn reported() -> Watch {
    let mut watch = Watch(Checker::of_reports());
    watch.see(1, PROPOSE, &command(5), &state(LEADER, 1, 1, 1, &[5]), "").unwrap();
    watch
}

#[test]
fn reports_agree_stay_and_were_asked_for() {
    assert_eq!(reported().silent(2, &state(FOLLOWER, 1, 1, 1, &[5])), Ok(()));
    assert_eq!(reported().silent(2, &state(FOLLOWER, 1, 1, 1, &[6])), Err(Reason::ReportsDiffer));
    assert_eq!(reported().silent(1, &state(FOLLOWER, 1, 1, 0, &[5])), Err(Reason::ReportTakenBack));
    assert_eq!(reported().silent(1, &state(FOLLOWER, 1, 1, 1, &[6])), Err(Reason::ReportTakenBack));
    assert_eq!(reported().silent(2, &state(FOLLOWER, 1, 1, 2, &[5, 6])), Err(Reason::ReportedNotAsked));
}
