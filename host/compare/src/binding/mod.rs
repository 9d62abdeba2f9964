//! The proved library's functions, as safe Rust. Slices pass as a pointer and a length.

pub mod both;
pub mod call;
pub mod outcomes;
pub mod watched;

use independent::Outcome;

mod library {
    unsafe extern "C" {
        pub fn kritnamon_read_command(
            bytes: *const u8,
            length: usize,
            numbers: *mut u32,
            count: usize,
        ) -> u32;
        pub fn kritnamon_write_command(
            motor: u32,
            kind: u32,
            duration: i32,
            a: u32,
            b: u32,
            out: *mut u8,
            length: usize,
        ) -> u32;
        pub fn kritnamon_play(
            command: *const u8,
            length: usize,
            elapsed: i64,
            floor: u32,
            ceiling: u32,
            left: *mut i64,
            drive: *mut u32,
        ) -> u32;
        pub fn kritnamon_version() -> u32;
        pub fn kritnamon_state_size() -> usize;
        pub fn kritnamon_places() -> u32;
        pub fn kritnamon_output_size() -> usize;
        pub fn kritnamon_chosen(state: *const u8, length: usize) -> u64;
        pub fn kritnamon_reported(
            state: *const u8,
            length: usize,
            place: u32,
            out: *mut u8,
            out_length: usize,
        ) -> u32;
        pub fn kritnamon_read_message(text: *const u8, length: usize, fields: *mut u32, count: usize) -> u64;
        pub fn kritnamon_write_message(
            numbers: *const u32,
            count: usize,
            rows: *const u8,
            rows_length: usize,
            out: *mut u8,
            out_length: usize,
        ) -> u64;
        pub fn kritnamon_step(
            n: u32,
            own: u32,
            event: u32,
            a: u32,
            b: u32,
            state: *mut u8,
            state_length: usize,
            input: *const u8,
            input_length: usize,
            out: *mut u8,
            out_length: usize,
        ) -> u64;
    }
}

fn named(number: u32) -> Outcome {
    Outcome::numbered(number).expect("one of the outcomes")
}

/// Reads a command alone, into lent numbers: motor, kind, duration, a and b.
pub fn read_command(bytes: &[u8], numbers: &mut [u32]) -> Outcome {
    // SAFETY: each pointer and length are those of one slice, the second lent to this call alone.
    named(unsafe {
        library::kritnamon_read_command(bytes.as_ptr(), bytes.len(), numbers.as_mut_ptr(), numbers.len())
    })
}

/// Writes a command alone.
pub fn write_command(motor: u32, kind: u32, duration: i32, a: u32, b: u32, out: &mut [u8]) -> Outcome {
    // SAFETY: pointer and length are those of one slice, lent to this call alone.
    named(unsafe {
        library::kritnamon_write_command(motor, kind, duration, a, b, out.as_mut_ptr(), out.len())
    })
}

/// Plays a command. The time left and the drive are put into the lent numbers.
pub fn play(
    command: &[u8],
    elapsed: i64,
    floor: u32,
    ceiling: u32,
    left: &mut i64,
    drive: &mut u32,
) -> Outcome {
    // SAFETY: pointer and length are those of one slice; both numbers are lent to this call alone.
    named(unsafe {
        library::kritnamon_play(command.as_ptr(), command.len(), elapsed, floor, ceiling, left, drive)
    })
}

/// What the library answers in one number.
#[derive(Clone, Copy, Debug, PartialEq, Eq)]
pub struct Answer {
    pub outcome: Outcome,
    /// Where a text that was refused is wrong; else 0.
    pub place: u32,
    /// The number that the function has beside these, the bytes of a message say; 0 at a refusal that writes none.
    pub second: u32,
}

impl Answer {
    /// An answer that tells of no place.
    pub fn new(outcome: Outcome, second: u32) -> Answer {
        Answer { outcome, place: 0, second }
    }

    /// The three parts of the library's number. Whatever was called, only with outcome 4 there is a place.
    fn unpacked(answer: u64) -> Answer {
        let [outcome, place, second] = [answer & 0xff, answer >> 8 & 0xff_ffff, answer >> 32];
        let outcome = named(outcome as u32);
        assert!(outcome == Outcome::BadMessage || place == 0, "{outcome:?} with the place {place}");
        Answer { outcome, place: place as u32, second: second as u32 }
    }
}

/// Reads a message alone, into lent numbers: type, term, from, to, and its own. Answers the outcome, where the text is wrong, and where the
/// entry lines begin.
pub fn read_message(text: &[u8], fields: &mut [u32]) -> Answer {
    Answer::unpacked(read_packed(text, fields))
}

/// The same, with the answer's three parts in one number, as the library gives it.
pub fn read_packed(text: &[u8], fields: &mut [u32]) -> u64 {
    // SAFETY: each pointer and length are those of one slice, the second lent to this call alone.
    unsafe { library::kritnamon_read_message(text.as_ptr(), text.len(), fields.as_mut_ptr(), fields.len()) }
}

/// Writes a message alone, from its numbers and the rows of its entries. Answers the outcome and how many bytes were written.
pub fn write_message(numbers: &[u32], rows: &[u8], out: &mut [u8]) -> Answer {
    // SAFETY: each pointer and length are those of one slice, the last lent to this call alone.
    Answer::unpacked(unsafe {
        library::kritnamon_write_message(
            numbers.as_ptr(),
            numbers.len(),
            rows.as_ptr(),
            rows.len(),
            out.as_mut_ptr(),
            out.len(),
        )
    })
}

/// Takes one step of hub `own` of `n`. Answers the outcome, where a received text is wrong, and how many bytes of message were written.
#[allow(clippy::too_many_arguments)] // The call's form is given.
pub fn step(
    n: u32,
    own: u32,
    event: u32,
    a: u32,
    b: u32,
    state: &mut [u8],
    input: &[u8],
    out: &mut [u8],
) -> Answer {
    // SAFETY: each pointer and length are those of one slice; state and output are lent to this call alone.
    Answer::unpacked(unsafe {
        library::kritnamon_step(
            n,
            own,
            event,
            a,
            b,
            state.as_mut_ptr(),
            state.len(),
            input.as_ptr(),
            input.len(),
            out.as_mut_ptr(),
            out.len(),
        )
    })
}

/// The library's version.
pub fn version() -> u32 {
    // SAFETY: the function takes nothing.
    unsafe { library::kritnamon_version() }
}

/// The size of a state, the places of a log, and the least size of an output.
pub fn sizes() -> (usize, u32, usize) {
    // SAFETY: the functions take nothing.
    unsafe {
        (library::kritnamon_state_size(), library::kritnamon_places(), library::kritnamon_output_size())
    }
}

/// The outcome, and how many commands a hub reports.
pub fn chosen(state: &[u8]) -> Answer {
    // SAFETY: pointer and length are those of one slice.
    Answer::unpacked(unsafe { library::kritnamon_chosen(state.as_ptr(), state.len()) })
}

/// The command that a hub reports at a place.
pub fn reported(state: &[u8], place: u32, out: &mut [u8]) -> Outcome {
    // SAFETY: each pointer and length are those of one slice, the second lent to this call alone.
    named(unsafe {
        library::kritnamon_reported(state.as_ptr(), state.len(), place, out.as_mut_ptr(), out.len())
    })
}
