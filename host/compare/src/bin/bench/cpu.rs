//! CPU time of this process, and two pieces of work timed side by side.

/// C's `struct timespec` on a 64-bit machine.
#[repr(C)]
struct Timespec {
    seconds: i64,
    nanoseconds: i64,
}

unsafe extern "C" {
    fn clock_gettime(clock: i32, time: *mut Timespec) -> i32;
}

const CLOCK_PROCESS_CPUTIME_ID: i32 = 2;

/// Nanoseconds of CPU time so far.
pub fn now() -> u64 {
    let mut time = Timespec { seconds: 0, nanoseconds: 0 };
    // SAFETY: the pointer is to a timespec of this function's own.
    let failed = unsafe { clock_gettime(CLOCK_PROCESS_CPUTIME_ID, &mut time) };
    assert_eq!(failed, 0, "the process has a CPU clock");
    time.seconds as u64 * 1_000_000_000 + time.nanoseconds as u64
}

/// So many calls of a piece of work that a round of them takes two milliseconds or more, against which the clock's own time does not count.
pub fn calls_of(mut work: impl FnMut()) -> u32 {
    const ROUND: f64 = 2_000_000.0;
    let mut calls = 1;
    while each(calls, &mut work) * f64::from(calls) < ROUND {
        calls *= 2;
    }
    calls
}

/// The median time of one call, in nanoseconds, of each of two pieces of work: eleven rounds of each, turn by turn.
pub fn medians(calls: u32, mut ours: impl FnMut(), mut theirs: impl FnMut()) -> (f64, f64) {
    medians_of(|| each(calls, &mut ours), || each(calls, &mut theirs))
}

/// How many states are put back at once: enough that the clock's own time does not count, few enough to stay in the cache.
const BATCH: u32 = 32;

/// The same for work that changes a state. Each call gets a state of its own; putting the states back is not timed.
pub fn medians_from(
    state: &[u8],
    calls: u32,
    mut ours: impl FnMut(&mut [u8]),
    mut theirs: impl FnMut(&mut [u8]),
) -> (f64, f64) {
    let batches = calls.div_ceil(BATCH);
    medians_of(|| each_from(state, batches, &mut ours), || each_from(state, batches, &mut theirs))
}

fn medians_of(mut ours: impl FnMut() -> f64, mut theirs: impl FnMut() -> f64) -> (f64, f64) {
    const ROUNDS: usize = 11;
    let mut times = [[0.0; ROUNDS]; 2];
    for round in 0..=ROUNDS {
        let first = ours();
        let second = theirs();
        // Round 0 only warms up.
        if let Some(index) = round.checked_sub(1) {
            times[0][index] = first;
            times[1][index] = second;
        }
    }
    for list in &mut times {
        list.sort_by(f64::total_cmp);
    }
    (times[0][ROUNDS / 2], times[1][ROUNDS / 2])
}

fn each(calls: u32, work: &mut impl FnMut()) -> f64 {
    let before = now();
    for _ in 0..calls {
        work();
    }
    (now() - before) as f64 / f64::from(calls)
}

fn each_from(state: &[u8], batches: u32, work: &mut impl FnMut(&mut [u8])) -> f64 {
    let mut states = vec![state.to_vec(); BATCH as usize];
    let mut spent = 0;
    for _ in 0..batches {
        states.iter_mut().for_each(|copy| copy.copy_from_slice(state));
        let before = now();
        states.iter_mut().for_each(|copy| work(copy));
        spent += now() - before;
    }
    spent as f64 / f64::from(batches * BATCH)
}
