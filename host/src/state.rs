//! A hub's state in lent bytes: a head of 56 bytes and a table of 1,024 rows of 20, numbers big-endian.
//!
//! | at | holds |
//! |---|---|
//! | 0 | term (4) |
//! | 4 | ballot (4) |
//! | 8 | chosen (4) |
//! | 12 | length of the log (4) |
//! | 16 | number of gathered pairs (4) |
//! | 20 | role: 0 follower, 1 candidate, 2 leader (1) |
//! | 21 | for each of hubs 1..7 whether it is among the voters, 0 or 1 (1 each) |
//! | 28 | for each of hubs 1..7 the length it has confirmed (4 each) |
//! | 56 | rows: term (log) or ballot (gathered) (4), command (16) |
//!
//! The log's rows come first, the gathered ones right behind them, all other rows are zero.
//! So each state has one image, and a fresh hub's is all zero.

use crate::command::{self, bytes_legal};
use crate::kinds::{Entry, Group, HUBS, Hub, LIMIT, Place, Rising, Term};

/// The head's bytes.
pub const HEAD_SIZE: usize = 56;

/// A row's bytes.
pub const ROW_SIZE: usize = 4 + command::SIZE;

/// The bytes of a whole state.
pub const SIZE: usize = HEAD_SIZE + LIMIT as usize * ROW_SIZE;

const TERM_AT: usize = 0;
const BALLOT_AT: usize = 4;
const CHOSEN_AT: usize = 8;
const LENGTH_AT: usize = 12;
const GATHERED_AT: usize = 16;
const ROLE_AT: usize = 20;
const VOTERS_AT: usize = 21;
const CONFIRMED_AT: usize = 28;

type HeadBytes = [u8; HEAD_SIZE];

/// A row of the table as it lies in the bytes.
pub type Row = [u8; ROW_SIZE];

/// What a hub is in its term.
#[derive(Clone, Copy, Debug, Default, PartialEq, Eq)]
pub enum Role {
    /// It answers.
    #[default]
    Follower = 0,
    /// It has asked to lead.
    Candidate = 1,
    /// It leads.
    Leader = 2,
}

/// All of a state but its rows. The default is a fresh hub's.
#[derive(Clone, Copy, Debug, Default, PartialEq, Eq)]
pub struct Head {
    /// The present term.
    pub term: Term,
    /// The ballot of the whole log.
    pub ballot: Term,
    /// The number of leading places known to be chosen.
    pub chosen: Place,
    /// The log's last place.
    pub length: Place,
    /// Lost at a restart: the number of gathered pairs.
    pub gathered: u32,
    /// Lost at a restart: the role.
    pub role: Role,
    /// Lost at a restart: which hubs a candidate has a vote-yes of.
    pub voters: [bool; HUBS],
    /// Lost at a restart: the length each hub has confirmed to a leader.
    pub confirmed: [Place; HUBS],
}

// ---- the head's image

fn number_at(bytes: &HeadBytes, at: usize) -> u32 {
    u32::from_be_bytes([bytes[at], bytes[at + 1], bytes[at + 2], bytes[at + 3]])
}

fn put_number(bytes: &mut HeadBytes, at: usize, value: u32) {
    bytes[at..at + 4].copy_from_slice(&value.to_be_bytes());
}

impl Head {
    /// The kept parts; the bytes of the lost parts are not looked at.
    fn decode_kept(bytes: &HeadBytes) -> Head {
        Head {
            term: Term(number_at(bytes, TERM_AT)),
            ballot: Term(number_at(bytes, BALLOT_AT)),
            chosen: Place(number_at(bytes, CHOSEN_AT)),
            length: Place(number_at(bytes, LENGTH_AT)),
            ..Head::default()
        }
    }

    /// None if the bytes are no head's image.
    fn decode(bytes: &HeadBytes) -> Option<Head> {
        let mut head = Head::decode_kept(bytes);
        head.gathered = number_at(bytes, GATHERED_AT);
        head.role = match bytes[ROLE_AT] {
            0 => Role::Follower,
            1 => Role::Candidate,
            2 => Role::Leader,
            _ => return None,
        };
        for (index, voter) in head.voters.iter_mut().enumerate() {
            *voter = match bytes[VOTERS_AT + index] {
                0 => false,
                1 => true,
                _ => return None,
            };
        }
        for (index, length) in head.confirmed.iter_mut().enumerate() {
            *length = Place(number_at(bytes, CONFIRMED_AT + 4 * index));
        }
        Some(head)
    }

    fn encode(&self, bytes: &mut HeadBytes) {
        put_number(bytes, TERM_AT, self.term.0);
        put_number(bytes, BALLOT_AT, self.ballot.0);
        put_number(bytes, CHOSEN_AT, self.chosen.0);
        put_number(bytes, LENGTH_AT, self.length.0);
        put_number(bytes, GATHERED_AT, self.gathered);
        bytes[ROLE_AT] = self.role as u8;
        for (index, &voter) in self.voters.iter().enumerate() {
            bytes[VOTERS_AT + index] = u8::from(voter);
        }
        for (index, length) in self.confirmed.iter().enumerate() {
            put_number(bytes, CONFIRMED_AT + 4 * index, length.0);
        }
    }
}

// ---- rows

fn row_term(row: &Row) -> Term {
    Term(u32::from_be_bytes([row[0], row[1], row[2], row[3]]))
}

fn row_command(row: &Row) -> &[u8; command::SIZE] {
    row.last_chunk().expect("a row ends with a command")
}

fn put_row(row: &mut Row, term: Term, command: &[u8; command::SIZE]) {
    row[..4].copy_from_slice(&term.0.to_be_bytes());
    row[4..].copy_from_slice(command);
}

/// A log row as an entry.
pub(crate) fn entry_of_row(row: &Row) -> Entry {
    Entry { term: row_term(row), command: *row_command(row) }
}

// ---- what is legal

fn kept_legal(head: &Head, rows: &[Row]) -> bool {
    head.ballot <= head.term
        && head.chosen <= head.length
        && head.length <= Place(LIMIT)
        && (head.ballot > Term(0) || head.length == Place(0))
        && log_legal(head, &rows[..head.length.rows()])
}

fn log_legal(head: &Head, log: &[Row]) -> bool {
    let mut terms = Rising { least: Term(1), most: head.ballot };
    log.iter().all(|row| terms.admits(row_term(row)) && bytes_legal(row_command(row)))
}

/// To be asked only where the kept parts are legal.
fn lost_legal(head: &Head, rows: &[Row], group: Group) -> bool {
    match head.role {
        Role::Follower => no_voters(head) && head.gathered == 0 && none_confirmed(&head.confirmed),
        Role::Candidate => {
            head.ballot < head.term
                && voters_legal(head, group)
                && gathered_legal(head, rows)
                && none_confirmed(&head.confirmed)
        }
        Role::Leader => {
            head.ballot == head.term
                && head.term >= Term(1)
                && confirmed_legal(head, group)
                && no_voters(head)
                && head.gathered == 0
        }
    }
}

fn no_voters(head: &Head) -> bool {
    head.voters == [false; HUBS]
}

fn none_confirmed(confirmed: &[Place]) -> bool {
    confirmed.iter().all(|&length| length == Place(0))
}

fn voters_legal(head: &Head, group: Group) -> bool {
    let (inside, outside) = head.voters.split_at(group.size());
    head.voters[group.own().index()] && count_of(inside) < group.majority() && count_of(outside) == 0
}

fn count_of(voters: &[bool]) -> usize {
    voters.iter().filter(|&&voter| voter).count()
}

fn gathered_legal(head: &Head, rows: &[Row]) -> bool {
    let room = LIMIT - head.length.0;
    head.gathered <= room
        && rows[head.length.rows()..][..head.gathered as usize].iter().all(|row| {
            let ballot = row_term(row);
            Term(1) <= ballot && ballot < head.term && bytes_legal(row_command(row))
        })
}

fn confirmed_legal(head: &Head, group: Group) -> bool {
    let (inside, outside) = head.confirmed.split_at(group.size());
    inside.iter().all(|&length| length <= head.length)
        && head.confirmed[group.own().index()] == head.length
        && none_confirmed(outside)
}

fn unused_zero(head: &Head, rows: &[Row]) -> bool {
    rows[head.length.plus(head.gathered).rows()..].iter().all(|row| *row == [0; ROW_SIZE])
}

fn parts(bytes: &[u8]) -> Option<(&HeadBytes, &[Row])> {
    let bytes: &[u8; SIZE] = bytes.try_into().ok()?;
    let (head, table) = bytes.split_first_chunk()?;
    Some((head, table.as_chunks().0))
}

fn read(bytes: &[u8], group: Group) -> Option<Head> {
    let (head, rows) = parts(bytes)?;
    let head = Head::decode(head)?;
    let legal = kept_legal(&head, rows) && lost_legal(&head, rows, group) && unused_zero(&head, rows);
    legal.then_some(head)
}

fn read_kept(bytes: &[u8]) -> Option<Head> {
    let (head, rows) = parts(bytes)?;
    let head = Head::decode_kept(head);
    kept_legal(&head, rows).then_some(head)
}

/// Whether the bytes are the image of a legal state of this group's own hub.
pub fn is_legal(bytes: &[u8], group: Group) -> bool {
    read(bytes, group).is_some()
}

/// The commands that a hub with this state reports, from place 1 on; none if the state is not legal.
pub fn reported(bytes: &[u8], group: Group) -> Option<impl Iterator<Item = &[u8; command::SIZE]>> {
    let head = read(bytes, group)?;
    let (_, rows) = parts(bytes)?;
    Some(rows[..head.chosen.rows()].iter().map(row_command))
}

// ---- the state at work

/// A legal state over its lent bytes: the head decoded, the rows where they lie.
/// Changes of the head reach the bytes with `close`; changes of rows at once.
pub(crate) struct State<'a> {
    pub group: Group,
    pub head: Head,
    head_bytes: &'a mut HeadBytes,
    rows: &'a mut [Row],
}

impl<'a> State<'a> {
    /// None, with nothing changed, if the state is not legal.
    pub fn open(bytes: &'a mut [u8], group: Group) -> Option<State<'a>> {
        let head = read(bytes, group)?;
        State::over(bytes, group, head)
    }

    /// As after a restart: the lost parts are empty in the head, but their bytes still hold whatever they held.
    pub fn open_kept(bytes: &'a mut [u8], group: Group) -> Option<State<'a>> {
        let head = read_kept(bytes)?;
        State::over(bytes, group, head)
    }

    fn over(bytes: &'a mut [u8], group: Group, head: Head) -> Option<State<'a>> {
        let (head_bytes, table) = bytes.split_first_chunk_mut()?;
        Some(State { group, head, head_bytes, rows: table.as_chunks_mut().0 })
    }

    /// Writes the head back.
    pub fn close(self) {
        self.head.encode(self.head_bytes);
    }

    /// The log's rows after a place.
    pub fn log_after(&self, place: Place) -> &[Row] {
        let end = self.head.length.rows();
        &self.rows[place.rows().min(end)..end]
    }

    /// The term of the entry at a place of the log; 0 for place 0.
    pub fn term_at(&self, place: Place) -> Term {
        match place.0 {
            0 => Term(0),
            _ => row_term(&self.rows[place.rows() - 1]),
        }
    }

    /// Becomes a follower with nothing held in the lost parts.
    pub fn clear_lost(&mut self) {
        let start = self.head.length.rows();
        self.rows[start..][..self.head.gathered as usize].fill([0; ROW_SIZE]);
        self.clear_lost_head();
    }

    /// The same where all rows behind the log may hold anything.
    pub fn clear_behind_log(&mut self) {
        let start = self.head.length.rows();
        self.rows[start..].fill([0; ROW_SIZE]);
        self.clear_lost_head();
    }

    fn clear_lost_head(&mut self) {
        let Head { term, ballot, chosen, length, .. } = self.head;
        self.head = Head { term, ballot, chosen, length, ..Head::default() };
    }

    /// Adds an entry at the end of a log that is not full.
    pub fn add(&mut self, term: Term, command: &[u8; command::SIZE]) {
        put_row(&mut self.rows[self.head.length.rows()], term, command);
        self.head.length = self.head.length.plus(1);
    }

    /// Puts the entries in place of all those after prev. The log never gets shorter by it.
    pub fn replace_after(&mut self, prev: Place, entries: impl Iterator<Item = Entry>) {
        let old = self.head.length;
        self.head.length = prev;
        for entry in entries {
            self.add(entry.term, &entry.command);
        }
        debug_assert!(self.head.length >= old, "rows of a cut log would stay behind");
    }

    /// Takes in a voter's entries, all of this ballot, for the places just after the log.
    pub fn gather(&mut self, ballot: Term, entries: impl Iterator<Item = Entry>) {
        let start = self.head.length.rows();
        let mut count = 0;
        for (row, entry) in self.rows[start..].iter_mut().zip(entries) {
            // A row not yet in use is zero, so its ballot is below any.
            if row_term(row) < ballot {
                put_row(row, ballot, &entry.command);
            }
            count += 1;
        }
        self.head.gathered = self.head.gathered.max(count);
    }

    /// Becomes the leader of the present term; the gathered commands join the log.
    pub fn lead(&mut self) {
        let term = self.head.term;
        let start = self.head.length.rows();
        for row in &mut self.rows[start..][..self.head.gathered as usize] {
            row[..4].copy_from_slice(&term.0.to_be_bytes());
        }
        self.head.length = self.head.length.plus(self.head.gathered);
        self.clear_lost_head();
        self.head.role = Role::Leader;
        self.head.ballot = term;
        self.confirm(self.group.own(), self.head.length);
    }

    /// Whether the hub's vote is among those held.
    pub fn has_voter(&self, hub: Hub) -> bool {
        self.head.voters[hub.index()]
    }

    /// Notes a vote.
    pub fn add_voter(&mut self, hub: Hub) {
        self.head.voters[hub.index()] = true;
    }

    /// Whether a majority's votes are held.
    pub fn has_majority(&self) -> bool {
        count_of(&self.head.voters) >= self.group.majority()
    }

    /// The length that a hub has confirmed.
    pub fn confirmed(&self, hub: Hub) -> Place {
        self.head.confirmed[hub.index()]
    }

    /// Notes the length that a hub has confirmed.
    pub fn confirm(&mut self, hub: Hub, length: Place) {
        self.head.confirmed[hub.index()] = length;
    }

    /// The largest place that a majority has confirmed.
    pub fn confirmed_by_majority(&self) -> Place {
        let mut lengths = self.head.confirmed;
        let inside = &mut lengths[..self.group.size()];
        inside.sort_unstable_by(|one, other| other.cmp(one));
        inside[self.group.majority() - 1]
    }
}
