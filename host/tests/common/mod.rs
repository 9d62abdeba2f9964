//! What the tests share: images, calls with every lent byte watched, chance, and a second opinion on legality.
//! Nothing here uses the library's own reading or writing of states.

#![allow(dead_code, unused_imports)] // Each test file uses its own part.

pub use image::{CANDIDATE, Command, FOLLOWER, Image, LEADER, STATE_SIZE, number_at};
use independent::step::step;
pub use independent::step::{PROPOSE, RECEIVE, RESTART, SEND, START};

pub const OUT_SIZE: usize = 65_536;

/// What the output holds before each call.
const FILL: u8 = 0xa5;

/// The command of rule R28's append: motor 3, buzz, 250 ms, gain 0.5.
pub const HEX: &str = "00030001000000fa3f00000000000000";

pub const APPEND: &str = "type=append\nterm=1\nfrom=1\nto=2\nprev=0\nprevterm=0\nchosen=0\ncount=1\n\
    entry=1:00030001000000fa3f00000000000000\n";

pub fn bytes(hex: &str) -> Command {
    std::array::from_fn(|at| u8::from_str_radix(&hex[2 * at..2 * at + 2], 16).unwrap())
}

pub fn hex(command: &Command) -> String {
    command.iter().map(|byte| format!("{byte:02x}")).collect()
}

/// A legal command, another for each number up to 600,000.
pub fn command(number: u32) -> Command {
    bytes(&format!("00070002{number:08x}000000003f800000"))
}

pub fn entry(term: u32, number: u32) -> String {
    format!("entry={term}:{}\n", hex(&command(number)))
}

/// A log with these terms; the commands are numbered by place.
pub fn log(terms: &[u32]) -> Vec<(u32, Command)> {
    terms.iter().enumerate().map(|(at, &term)| (term, command(at as u32 + 1))).collect()
}

pub fn follower(term: u32, ballot: u32, chosen: u32, terms: &[u32]) -> Image {
    Image { term, ballot, chosen, log: log(terms), ..Image::default() }
}

/// A candidate with these voters.
pub fn candidate(term: u32, ballot: u32, terms: &[u32], voters: &[usize]) -> Image {
    let mut image = Image { role: CANDIDATE, ..follower(term, ballot, 0, terms) };
    for hub in voters {
        image.voters[hub - 1] = 1;
    }
    image
}

/// A leader with these confirmed lengths.
pub fn leader(term: u32, chosen: u32, terms: &[u32], confirmed: &[u32]) -> Image {
    let mut image = Image { role: LEADER, ..follower(term, term, chosen, terms) };
    image.confirmed[..confirmed.len()].copy_from_slice(confirmed);
    image
}

/// A call's answer and the state after it.
#[derive(Debug, PartialEq)]
pub struct After {
    pub outcome: u32,
    pub text: String,
    pub state: Vec<u8>,
}

/// One call. Checks of every lent byte what holds for all calls: a refusal leaves the state, outcome 6 alone
/// writes beside 0, and the output behind the message stays.
#[allow(clippy::too_many_arguments)]
pub fn call(n: u32, own: u32, event: u32, a: u32, b: u32, state: &[u8], input: &[u8], room: usize) -> After {
    let mut after = state.to_vec();
    let mut out = vec![FILL; room];
    let answer = step(n, own, event, a, b, &mut after, input, &mut out);
    let outcome = answer.outcome.number();
    if outcome != 0 {
        assert!(after == state, "outcome {outcome} changed the state");
        assert!(outcome == 6 || answer.written == 0, "outcome {outcome} wrote");
    }
    assert!(out[answer.written..] == vec![FILL; room - answer.written], "output behind the message changed");
    let text = String::from_utf8(out[..answer.written].to_vec()).unwrap();
    After { outcome, text, state: after }
}

/// A hub and its group.
#[derive(Clone, Copy)]
pub struct At(pub u32, pub u32);

impl At {
    pub fn event(self, event: u32, a: u32, b: u32, image: &Image, input: &[u8]) -> After {
        call(self.0, self.1, event, a, b, &image.bytes(), input, OUT_SIZE)
    }

    pub fn start(self, image: &Image) -> After {
        self.event(START, 0, 0, image, b"")
    }

    pub fn propose(self, image: &Image, command: &[u8]) -> After {
        self.event(PROPOSE, 0, 0, image, command)
    }

    pub fn send(self, image: &Image, peer: u32, prev: u32) -> After {
        self.event(SEND, peer, prev, image, b"")
    }

    pub fn receive(self, image: &Image, text: &str) -> After {
        self.event(RECEIVE, 0, 0, image, text.as_bytes())
    }

    /// Whether the bytes pass as a state: an empty text is then refused as a text, with 4.
    pub fn accepts(self, state: &[u8]) -> bool {
        match call(self.0, self.1, RECEIVE, 0, 0, state, b"", OUT_SIZE).outcome {
            4 => true,
            2 => false,
            other => panic!("outcome {other}"),
        }
    }

    /// The same at a restart.
    pub fn restarts(self, state: &[u8]) -> bool {
        match call(self.0, self.1, RESTART, 0, 0, state, b"", OUT_SIZE).outcome {
            0 => true,
            2 => false,
            other => panic!("outcome {other}"),
        }
    }
}

/// The call is done, and these are the state and the message after it.
#[track_caller]
pub fn done(after: &After, image: &Image, text: &str) {
    assert_eq!((after.outcome, after.text.as_str()), (0, text));
    assert!(after.state == image.bytes(), "state is not {image:?}");
}

/// The call is refused without a message. (`call` has seen that the state stays.)
#[track_caller]
pub fn refused(after: &After, outcome: u32) {
    assert_eq!((after.outcome, after.text.as_str()), (outcome, ""));
}

// ---- chance

/// A small generator with a printed seed, so that a failure can be had again (splitmix64).
pub struct Dice(pub u64);

impl Dice {
    pub fn next(&mut self) -> u64 {
        self.0 = self.0.wrapping_add(0x9e37_79b9_7f4a_7c15);
        let mut mixed = self.0;
        mixed = (mixed ^ (mixed >> 30)).wrapping_mul(0xbf58_476d_1ce4_e5b9);
        mixed = (mixed ^ (mixed >> 27)).wrapping_mul(0x94d0_49bb_1331_11eb);
        mixed ^ (mixed >> 31)
    }

    pub fn below(&mut self, bound: usize) -> usize {
        (self.next() % bound as u64) as usize
    }

    pub fn one_in(&mut self, chances: usize) -> bool {
        self.below(chances) == 0
    }
}

// ---- a second opinion on legality, sentence by sentence from the rules

pub fn gain_legal(bits: u32) -> bool {
    let value = f32::from_bits(bits);
    value.is_sign_positive() && (0.0..=1.0).contains(&value)
}

pub fn command_legal(command: &Command) -> bool {
    let part = |at: usize| number_at(command, at);
    let (motor, kind) = (part(0) >> 16, part(0) & 0xffff);
    let lasts = (1..=600_000).contains(&(part(4) as i32));
    let case = match kind {
        0 => part(4) == 0 && part(8) == 0 && part(12) == 0,
        1 => lasts && gain_legal(part(8)) && part(12) == 0,
        2 => lasts && gain_legal(part(8)) && gain_legal(part(12)),
        _ => false,
    };
    (1..=64).contains(&motor) && case
}

pub fn kept_legal(image: &Image) -> bool {
    let terms: Vec<u32> = image.log.iter().map(|row| row.0).collect();
    image.ballot <= image.term
        && image.chosen as usize <= terms.len()
        && (image.ballot != 0 || terms.is_empty())
        && terms.is_sorted()
        && terms.iter().all(|&term| 1 <= term && term <= image.ballot)
        && image.log.iter().all(|row| command_legal(&row.1))
}

pub fn legal(image: &Image, At(n, own): At) -> bool {
    let (n, own, length) = (n as usize, own as usize, image.log.len() as u32);
    let votes = image.voters.iter().filter(|&&voter| voter == 1).count();
    let no_votes = image.voters == [0; 7];
    let none_confirmed = image.confirmed == [0; 7];
    let lost = match image.role {
        FOLLOWER => no_votes && none_confirmed && image.gathered.is_empty(),
        CANDIDATE => {
            image.ballot < image.term
                && image.voters[own - 1] == 1
                && votes < n / 2 + 1
                && image.voters[n..].iter().all(|&voter| voter == 0)
                && image.gathered.iter().all(|row| 1 <= row.0 && row.0 < image.term && command_legal(&row.1))
                && none_confirmed
        }
        LEADER => {
            image.ballot == image.term
                && image.term >= 1
                && image.confirmed.iter().all(|&confirmed| confirmed <= length)
                && image.confirmed[own - 1] == length
                && image.confirmed[n..].iter().all(|&confirmed| confirmed == 0)
                && no_votes
                && image.gathered.is_empty()
        }
        _ => false,
    };
    image.voters.iter().all(|&voter| voter <= 1) && kept_legal(image) && lost
}
