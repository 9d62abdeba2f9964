//! Broken hubs: each variant of the independent program with one rule broken is caught, by name, and each does harm.

use compare::binding::call::Step;
use compare::broken::{VARIANTS, says_yes_to_lower_ballot};
use compare::checker::paxos::Refusal::{NoMajorityReported, NotTheHighestVote, SecondProposal};
use compare::checker::{Checker, Reason};
use compare::generator::home::{Failure, Home, TURNS, size};
use independent::Outcome;

/// What catches each variant, in the order of `VARIANTS`: the first always does among these homes, the others may.
const CAUGHT: [&[Reason]; 9] = [
    &[Reason::VoteForgotten],
    &[
        Reason::Machine(NoMajorityReported),
        Reason::Machine(NotTheHighestVote),
        Reason::Machine(SecondProposal),
    ],
    &[Reason::Machine(NotTheHighestVote)],
    &[Reason::UntrueReport],
    &[Reason::Machine(NotTheHighestVote)],
    &[Reason::ReportedNotChosen],
    &[Reason::AcknowledgedWithoutVote],
    &[Reason::VoteForgotten],
    &[Reason::ReportedNotChosen, Reason::Refused(Outcome::Contradicting), Reason::Machine(SecondProposal)],
];

/// How many homes are tried with each variant.
const HOMES: u64 = 60;

fn failure(step: Step, seed: u64, watch: fn(u32) -> Checker) -> Option<Failure> {
    Home::new(step, seed, watch).run(TURNS).err()
}

/// It is caught by what MultiPaxos cannot do, without a look at what a single step makes of its bytes.
#[test]
fn every_variant_is_caught() {
    for ((name, step), reasons) in VARIANTS.into_iter().zip(CAUGHT) {
        let mut found = Vec::new();
        for seed in 1..=HOMES {
            let Some(Failure { reason, steps, .. }) = failure(step, seed, Checker::of_machine) else {
                continue;
            };
            assert!(reasons.contains(&reason), "{name}: {reason:?}, seed {seed}");
            if !found.contains(&reason) {
                println!("{name}: {reason:?} at step {steps} of seed {seed}, {} hubs", size(seed));
                found.push(reason);
            }
        }
        assert!(found.contains(&reasons[0]), "{name} was not caught: {found:?}");
    }
}

/// A home for each variant, in the order of `VARIANTS`, in which it does harm: the first such seed, found by trying one after the other. A
/// change of what a seed makes happen changes them.
const HARMED: [u64; 9] = [7, 422, 9, 18, 646, 40, 1, 483, 154];

/// Nothing but the hubs' reports is looked at: two of them come to differ, or one takes back what it has reported.
#[test]
fn every_variant_does_harm() {
    for ((name, step), seed) in VARIANTS.into_iter().zip(HARMED) {
        let failure = failure(step, seed, |_| Checker::of_reports());
        let Some(Failure { reason, steps, .. }) = failure else { panic!("{name}: no harm with seed {seed}") };
        println!("{name}: {reason:?} at step {steps} of seed {seed}, {} hubs", size(seed));
        assert!(matches!(reason, Reason::ReportsDiffer | Reason::ReportTakenBack), "{name}: {reason:?}");
    }
}

/// Where every step is looked at alone too, a restart that leaves anything but what was kept is found out at once.
#[test]
fn a_broken_restart_is_seen_at_once() {
    for (name, step) in VARIANTS.into_iter().filter(|variant| variant.0.starts_with("a restart")) {
        let reason = |seed| failure(step, seed, Checker::new).map(|failure| failure.reason);
        let reasons: Vec<Reason> = (1..=HOMES).filter_map(reason).collect();
        let at_once = reasons.iter().all(|&reason| reason == Reason::NotWhatWasKept);
        assert!(reasons.len() > 10 && at_once, "{name}: {reasons:?}");
    }
}

/// Where only the asked hub leaves out its check, every such vote is refused with 7 by the candidate, and no harm is done.
#[test]
fn the_candidates_refusal_is_enough() {
    let refused = |seed| failure(says_yes_to_lower_ballot, seed, Checker::new).map(|failure| failure.reason);
    let reasons: Vec<Reason> = (1..=HOMES).filter_map(refused).collect();
    assert!(
        !reasons.is_empty()
            && reasons.iter().all(|&reason| reason == Reason::Refused(Outcome::Contradicting)),
        "{reasons:?}"
    );
    let harmed = |seed: &u64| failure(says_yes_to_lower_ballot, *seed, |_| Checker::of_reports()).is_some();
    assert_eq!((1..=HOMES).find(harmed), None);
}
