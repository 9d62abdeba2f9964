//! A hub's state in plain parts, and its bytes as docs/LAYOUT.md lays them out. Tests make states with it and look at those that steps
//! leave, so it leans on neither of the programs that take steps. Whether a state is legal is not asked here.

use std::ops::Range;

/// The bytes of a state.
pub const STATE_SIZE: usize = 20_536;

/// The bytes of its head, and of each row behind it.
pub const HEAD_SIZE: usize = 56;
pub const ROW_SIZE: usize = 20;

/// How many rows there are.
pub const PLACES: u32 = 1_024;

/// Where the parts of the head stand.
pub const TERM_AT: usize = 0;
pub const BALLOT_AT: usize = 4;
pub const CHOSEN_AT: usize = 8;
pub const LENGTH_AT: usize = 12;
pub const GATHERED_AT: usize = 16;
pub const ROLE_AT: usize = 20;
pub const VOTERS_AT: usize = 21;
pub const CONFIRMED_AT: usize = 28;

/// The head's bytes that are lost at a restart.
pub const LOST: Range<usize> = GATHERED_AT..HEAD_SIZE;

/// Roles.
pub const FOLLOWER: u8 = 0;
pub const CANDIDATE: u8 = 1;
pub const LEADER: u8 = 2;

pub type Command = [u8; 16];

/// A row: an entry's term, or a gathered entry's ballot, and a command.
pub type Row = (u32, Command);

/// A hub's state.
#[derive(Clone, Debug, Default, PartialEq)]
pub struct Image {
    pub term: u32,
    pub ballot: u32,
    pub chosen: u32,
    pub role: u8,
    /// For each of hubs 1 to 7, at its number less one: 1 for a voter, else 0.
    pub voters: [u8; 7],
    /// For each of hubs 1 to 7, at its number less one.
    pub confirmed: [u32; 7],
    pub log: Vec<Row>,
    pub gathered: Vec<Row>,
}

/// The number that stands at an offset.
pub fn number_at(bytes: &[u8], at: usize) -> u32 {
    u32::from_be_bytes(bytes[at..at + 4].try_into().expect("four bytes"))
}

/// Puts a number at an offset.
pub fn put_number(bytes: &mut [u8], at: usize, number: u32) {
    bytes[at..at + 4].copy_from_slice(&number.to_be_bytes());
}

/// Where the row of a place begins; behind the log the places go on with the gathered entries.
pub fn row_at(place: u32) -> usize {
    HEAD_SIZE + ROW_SIZE * (place as usize - 1)
}

/// Where the length stands that a hub has confirmed.
pub fn confirmed_at(hub: u32) -> usize {
    CONFIRMED_AT + 4 * (hub as usize - 1)
}

/// All that is lost at a restart: of the head, and the rows behind the log.
pub fn lost_parts(bytes: &[u8]) -> [Range<usize>; 2] {
    [LOST, row_at(number_at(bytes, LENGTH_AT) + 1)..STATE_SIZE]
}

/// The bytes of rows, one behind the other.
pub fn bytes_of_rows<'a>(rows: impl IntoIterator<Item = &'a Row>) -> Vec<u8> {
    let mut bytes = Vec::new();
    for (term, command) in rows {
        bytes.extend(term.to_be_bytes());
        bytes.extend(command);
    }
    bytes
}

/// The rows of such bytes.
pub fn rows_of_bytes(bytes: &[u8]) -> Vec<Row> {
    let row = |row: &[u8]| (number_at(row, 0), row[4..].try_into().expect("sixteen bytes"));
    bytes.chunks_exact(ROW_SIZE).map(row).collect()
}

impl Image {
    pub fn length(&self) -> u32 {
        self.log.len() as u32
    }

    pub fn bytes(&self) -> Vec<u8> {
        let numbers = [self.term, self.ballot, self.chosen, self.length(), self.gathered.len() as u32];
        let mut bytes: Vec<u8> = numbers.iter().flat_map(|number| number.to_be_bytes()).collect();
        bytes.push(self.role);
        bytes.extend(self.voters);
        bytes.extend(self.confirmed.iter().flat_map(|length| length.to_be_bytes()));
        bytes.extend(bytes_of_rows(self.log.iter().chain(&self.gathered)));
        assert!(bytes.len() <= STATE_SIZE, "more rows than there are places");
        bytes.resize(STATE_SIZE, 0);
        bytes
    }

    /// The state of these bytes, or none if they are no state's: of another length, with a role or a voter's mark that there is not, or
    /// with anything behind the last row in use.
    pub fn read(bytes: &[u8]) -> Option<Image> {
        let kept = Image::kept(bytes)?;
        let gathered = number_at(bytes, GATHERED_AT);
        if gathered > PLACES - kept.length() {
            return None;
        }
        let (held, unused) = bytes[row_at(kept.length() + 1)..].split_at(gathered as usize * ROW_SIZE);
        let image = Image {
            role: bytes[ROLE_AT],
            voters: bytes[VOTERS_AT..CONFIRMED_AT].try_into().expect("seven bytes"),
            confirmed: std::array::from_fn(|index| number_at(bytes, CONFIRMED_AT + 4 * index)),
            gathered: rows_of_bytes(held),
            ..kept
        };
        let known = image.role <= LEADER && image.voters.iter().all(|&mark| mark <= 1);
        (known && unused.chunks(ROW_SIZE).all(|row| row == [0; ROW_SIZE])).then_some(image)
    }

    /// What of these bytes is kept over a restart, all else as at a fresh hub; none if a log's length cannot be seen in them.
    pub fn kept(bytes: &[u8]) -> Option<Image> {
        if bytes.len() != STATE_SIZE || number_at(bytes, LENGTH_AT) > PLACES {
            return None;
        }
        let length = number_at(bytes, LENGTH_AT);
        Some(Image {
            term: number_at(bytes, TERM_AT),
            ballot: number_at(bytes, BALLOT_AT),
            chosen: number_at(bytes, CHOSEN_AT),
            log: rows_of_bytes(&bytes[HEAD_SIZE..row_at(length + 1)]),
            ..Image::default()
        })
    }

    /// The commands that the hub reports.
    pub fn reported(&self) -> impl Iterator<Item = Command> {
        self.log.iter().take(self.chosen as usize).map(|row| row.1)
    }
}
