//! Majorities of a home, their hubs in any legal states, and one of them to ask: such as meet every premise of request W-213, and such as
//! miss just one of them.

use crate::generator::rng::Rng;
use crate::generator::states::{at_most, legal, of_term, rising};
use image::{Image, LEADER};
use independent::{Group, LIMIT};
use std::fmt;

/// As many hubs of a group as are a majority, each with its state. The first is the asker.
pub struct Majority {
    pub hubs: Vec<(Group, Image)>,
}

/// What is asked of the asker and of each hub of its majority, itself included, so that it gets a command chosen.
#[derive(Clone, Copy, PartialEq, Eq)]
pub enum Premise {
    /// The asker does not lead.
    NotLeading,
    /// The asker's term is not the last.
    TermLeft,
    /// The hub's term is not above the asker's.
    Term,
    /// The hub's ballot is not above the asker's, or its log is empty.
    Ballot,
    /// The hub's log is not full.
    Room,
}

impl Premise {
    const ALL: [Premise; 5] =
        [Premise::NotLeading, Premise::TermLeft, Premise::Term, Premise::Ballot, Premise::Room];

    fn is_met(self, asker: &Image, hub: &Image) -> bool {
        match self {
            Premise::NotLeading => asker.role != LEADER,
            Premise::TermLeft => asker.term < u32::MAX,
            Premise::Term => hub.term <= asker.term,
            Premise::Ballot => hub.ballot <= asker.ballot || hub.log.is_empty(),
            Premise::Room => hub.length() < LIMIT,
        }
    }
}

impl Majority {
    /// One that meets all premises.
    pub fn meeting_all(rng: &mut Rng) -> Majority {
        Majority::made(rng, None)
    }

    /// One that misses this premise and meets all others.
    pub fn missing(rng: &mut Rng, missed: Premise) -> Majority {
        Majority::made(rng, Some(missed))
    }

    fn made(rng: &mut Rng, missed: Option<Premise>) -> Majority {
        loop {
            let home = Majority::any(rng);
            if Premise::ALL.into_iter().all(|premise| home.meets(premise) != (missed == Some(premise))) {
                return home;
            }
        }
    }

    fn meets(&self, premise: Premise) -> bool {
        self.hubs.iter().all(|hub| premise.is_met(self.asker(), &hub.1))
    }

    /// The asker in any legal state, the others beside it.
    fn any(rng: &mut Rng) -> Majority {
        let n = rng.pick(&[3, 5, 7]);
        let mut groups: Vec<Group> = (1..=n).filter_map(|own| Group::new(n, own)).collect();
        rng.shuffle(&mut groups);
        groups.truncate(groups[0].majority());
        let asker = first(rng, groups[0]);
        let others: Vec<Image> = groups[1..].iter().map(|&group| beside(rng, group, &asker)).collect();
        Majority { hubs: groups.into_iter().zip([asker].into_iter().chain(others)).collect() }
    }

    pub fn asker(&self) -> &Image {
        &self.hubs[0].1
    }

    pub fn others(&self) -> impl Iterator<Item = &Image> {
        self.hubs[1..].iter().map(|hub| &hub.1)
    }

    /// The length of the longest log.
    pub fn longest(&self) -> u32 {
        self.hubs.iter().map(|hub| hub.1.length()).max().unwrap_or(0)
    }
}

/// The group's size, and of each hub its number and its state's head, the asker first.
impl fmt::Display for Majority {
    fn fmt(&self, to: &mut fmt::Formatter) -> fmt::Result {
        write!(to, "of {}", self.hubs[0].0.size())?;
        for (group, image) in &self.hubs {
            let Image { term, ballot, chosen, role, .. } = image;
            let (own, length) = (group.own().0, image.length());
            write!(
                to,
                ", hub {own} (role {role}, term {term}, ballot {ballot}, chosen {chosen}, length {length})"
            )?;
        }
        Ok(())
    }
}

/// Any legal state, but an empty log less often than it would come.
fn first(rng: &mut Rng, group: Group) -> Image {
    let state = legal(rng, group);
    if state.log.is_empty() && !rng.one_in(4) { legal(rng, group) } else { state }
}

/// Any legal state; three times in four it is made again until its term and ballot go with the asker's.
fn beside(rng: &mut Rng, group: Group, asker: &Image) -> Image {
    let anyhow = rng.one_in(4);
    loop {
        let hub = near(rng, group, asker);
        let goes = [Premise::Term, Premise::Ballot].iter().all(|premise| premise.is_met(asker, &hub));
        if anyhow || goes {
            return hub;
        }
    }
}

/// A legal state at a term up to the asker's more often than not.
fn near(rng: &mut Rng, group: Group, asker: &Image) -> Image {
    let term = match rng.below(8) {
        0 => asker.term + at_most(rng, u32::MAX - asker.term),
        1..5 => at_most(rng, asker.term),
        _ => at_most(rng, asker.ballot),
    };
    match rng.below(8) {
        0 => akin(rng, asker),
        1 => emptied(of_term(rng, group, term)),
        _ => of_term(rng, group, term),
    }
}

/// The same with an empty log.
fn emptied(image: Image) -> Image {
    Image { chosen: 0, confirmed: [0; 7], log: Vec::new(), ..image }
}

/// A follower at the asker's term and ballot: its log is the asker's up to some place, and goes on with other entries.
fn akin(rng: &mut Rng, asker: &Image) -> Image {
    let mut log = asker.log.clone();
    log.truncate(at_most(rng, asker.length()) as usize);
    let (least, room) = (log.last().map_or(1, |row| row.0), LIMIT - log.len() as u32);
    let more = rng.up_to(room.min(9));
    log.extend(rising(rng, more, least, asker.ballot));
    let chosen = at_most(rng, log.len() as u32);
    Image { term: asker.term, ballot: asker.ballot, chosen, log, ..Image::default() }
}
