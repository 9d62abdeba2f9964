//! The words every module uses: hub numbers, places, terms, entries, outcomes.
//! A hub number, a place and a term are types of their own, so that exchanging them does not compile.

use crate::command;

/// The greatest place of a log.
pub const LIMIT: u32 = 1_024;

/// The largest group; tables with a part for each hub have this many parts.
pub const HUBS: usize = 7;

/// The shortest output lent for a message.
pub const OUTPUT_LEAST: usize = 65_536;

/// The longest message text looked at.
pub const INPUT_MOST: usize = 65_536;

/// A hub's number, from 1; in a message 0 stands for all.
#[derive(Clone, Copy, Debug, PartialEq, Eq, PartialOrd, Ord)]
pub struct Hub(pub u32);

/// A place of the log, from 1; also a length, which is the last place in use (0: none).
#[derive(Clone, Copy, Debug, Default, PartialEq, Eq, PartialOrd, Ord)]
pub struct Place(pub u32);

/// A term or a ballot. The two are compared with each other everywhere, so they share a type.
#[derive(Clone, Copy, Debug, Default, PartialEq, Eq, PartialOrd, Ord)]
pub struct Term(pub u32);

impl Hub {
    /// Where this hub stands in a table of all hubs.
    pub(crate) fn index(self) -> usize {
        self.0 as usize - 1
    }
}

impl Place {
    /// The place `count` further on.
    pub(crate) fn plus(self, count: u32) -> Place {
        Place(self.0 + count)
    }

    /// The number of table rows up to this place.
    pub(crate) fn rows(self) -> usize {
        self.0 as usize
    }
}

/// The group a hub belongs to, and which of its hubs it is.
#[derive(Clone, Copy, Debug, PartialEq, Eq)]
pub struct Group {
    size: u32,
    own: Hub,
}

impl Group {
    /// The group of `size` hubs seen from hub `own`, if a home may have it.
    pub fn new(size: u32, own: u32) -> Option<Group> {
        let known = matches!(size, 3 | 5 | 7) && (1..=size).contains(&own);
        known.then_some(Group { size, own: Hub(own) })
    }

    /// The number of hubs.
    pub fn size(self) -> usize {
        self.size as usize
    }

    /// The hub itself.
    pub fn own(self) -> Hub {
        self.own
    }

    /// The least number of hubs that any two such sets have one in common.
    pub fn majority(self) -> usize {
        self.size() / 2 + 1
    }

    /// Whether `hub` is one of the others of this group.
    pub fn has_peer(self, hub: Hub) -> bool {
        (1..=self.size).contains(&hub.0) && hub != self.own
    }
}

/// A log entry: its term, and its command as it stands in bytes.
#[derive(Clone, Copy, Debug, PartialEq, Eq)]
pub struct Entry {
    /// The term in which a leader added it.
    pub term: Term,
    /// The command's bytes.
    pub command: [u8; command::SIZE],
}

/// What successive entry terms have to keep to: never falling, and not above `most`.
pub(crate) struct Rising {
    /// The least term the next entry may have.
    pub least: Term,
    /// The greatest term any entry may have.
    pub most: Term,
}

impl Rising {
    /// Whether an entry of this term may come next. To be asked for each entry in turn.
    pub fn admits(&mut self, term: Term) -> bool {
        let fits = self.least <= term && term <= self.most;
        self.least = term;
        fits
    }
}

/// The outcome of a call. The number is rule R32's, the name that of include/kritnamon.h.
#[derive(Clone, Copy, Debug, PartialEq, Eq)]
#[repr(u32)]
pub enum Outcome {
    /// Done.
    Done = 0,
    /// N not 3, 5 or 7, own number not in 1..N, or an unknown event kind.
    NotKnown = 1,
    /// State bytes not of the layout's length, or state not legal.
    BadState = 2,
    /// Output too short.
    ShortOutput = 3,
    /// Message text not legal or too long.
    BadMessage = 4,
    /// Message from outside the group or from the hub itself, or to another hub.
    NotAddressed = 5,
    /// Term below own, or vote-request at own term.
    Stale = 6,
    /// A message of own term that no hub keeping to the rules sends.
    Contradicting = 7,
    /// Start at a leader; propose or send at another role.
    WrongRole = 8,
    /// Start at the last term there is.
    NoTermLeft = 9,
    /// Command not 16 bytes or not legal; proposed, also one too short to feel.
    BadCommand = 10,
    /// Propose at a full log.
    LogFull = 11,
    /// Send to a number that is no peer's, or from a prev above the length.
    OutOfRange = 12,
    /// A message of own term that changes nothing and is not answered.
    NothingNew = 13,
    /// Played: a command not 16 bytes or not legal.
    NotPlayable = 14,
    /// Played: a calibration with a gain that is not legal, or a floor above its ceiling.
    BadCalibration = 15,
    /// Played: an elapsed time out of range.
    BadElapsed = 16,
}

impl Outcome {
    /// Every outcome, each at its number.
    pub const ALL: [Outcome; 17] = [
        Outcome::Done,
        Outcome::NotKnown,
        Outcome::BadState,
        Outcome::ShortOutput,
        Outcome::BadMessage,
        Outcome::NotAddressed,
        Outcome::Stale,
        Outcome::Contradicting,
        Outcome::WrongRole,
        Outcome::NoTermLeft,
        Outcome::BadCommand,
        Outcome::LogFull,
        Outcome::OutOfRange,
        Outcome::NothingNew,
        Outcome::NotPlayable,
        Outcome::BadCalibration,
        Outcome::BadElapsed,
    ];

    /// The outcome of rule R32's number; none where there is no such number.
    pub fn numbered(number: u32) -> Option<Outcome> {
        Outcome::ALL.get(number as usize).copied()
    }

    /// The number of rule R32.
    pub fn number(self) -> u32 {
        self as u32
    }
}

/// What a call that writes hands back.
#[derive(Clone, Copy, Debug, PartialEq, Eq)]
#[must_use]
pub struct Answer {
    /// How the call went.
    pub outcome: Outcome,
    /// How many bytes at the start of the output hold what was written.
    pub written: usize,
}

impl Answer {
    pub(crate) fn done(written: usize) -> Answer {
        Answer { outcome: Outcome::Done, written }
    }

    pub(crate) fn refused(outcome: Outcome) -> Answer {
        Answer { outcome, written: 0 }
    }
}
