//! The stack that a call takes: it is made on a thread whose stack is memory of our own, filled with a pattern before. Afterwards the lowest
//! byte that was written tells how deep the call went.

use crate::writing::append;
use crate::{steps, table};
use compare::binding::both::Call;
use compare::generator::messages::{FIELDS, ROOM, message_of};
use independent::{LIMIT, message, step};
use std::alloc::{Layout, alloc, dealloc};
use std::ffi::c_void;
use std::hint::black_box;

const SIZE: usize = 1 << 20;
const PATTERN: u8 = 0xc3;

/// Room for C's `pthread_attr_t`, which has at most 64 bytes on a 64-bit machine.
#[repr(C, align(16))]
struct Attributes([u64; 16]);

type Start = extern "C" fn(*mut c_void) -> *mut c_void;

unsafe extern "C" {
    fn pthread_attr_init(attributes: *mut Attributes) -> i32;
    fn pthread_attr_setstack(attributes: *mut Attributes, stack: *mut u8, size: usize) -> i32;
    fn pthread_create(
        thread: *mut usize,
        attributes: *const Attributes,
        start: Start,
        argument: *mut c_void,
    ) -> i32;
    fn pthread_join(thread: usize, result: *mut *mut c_void) -> i32;
}

/// What the thread does, and where its stack stood when it did.
struct Job<'a> {
    work: &'a mut dyn FnMut(),
    begun: usize,
}

extern "C" fn run(argument: *mut c_void) -> *mut c_void {
    // SAFETY: `on_thread` hands over a job of its own, and does not use it before this thread has ended.
    let job = unsafe { &mut *argument.cast::<Job>() };
    let here = 0u8;
    job.begun = black_box(&raw const here) as usize;
    (job.work)();
    std::ptr::null_mut()
}

fn succeeded(answer: i32) {
    assert_eq!(answer, 0, "a thread on a stack of our own");
}

/// Runs a job on a thread of this stack, to its end.
fn on_thread(stack: *mut u8, job: &mut Job) {
    let mut attributes = Attributes([0; 16]);
    let mut thread = 0;
    // SAFETY: the stack has SIZE bytes; it, the attributes and the job outlive the thread, which is waited for.
    unsafe {
        succeeded(pthread_attr_init(&mut attributes));
        succeeded(pthread_attr_setstack(&mut attributes, stack, SIZE));
        succeeded(pthread_create(&mut thread, &attributes, run, (&raw mut *job).cast()));
        succeeded(pthread_join(thread, std::ptr::null_mut()));
    }
}

/// How many bytes of stack the work takes.
fn used(work: &mut dyn FnMut()) -> usize {
    let layout = Layout::from_size_align(SIZE, 4_096).expect("a layout");
    let mut job = Job { work, begun: 0 };
    // SAFETY: the bytes are allocated here, all written before the thread begins, and read once it has ended.
    let lowest = unsafe {
        let stack = alloc(layout);
        assert!(!stack.is_null(), "memory for a stack");
        stack.write_bytes(PATTERN, SIZE);
        on_thread(stack, &mut job);
        let bytes = std::slice::from_raw_parts(stack, SIZE);
        let left = bytes.iter().take_while(|&&byte| byte == PATTERN).count();
        dealloc(stack, layout);
        stack as usize + left
    };
    job.begun - lowest
}

/// The most stack that a step of the tables takes: the proved library's, and the independent program's.
fn step_depths() -> [usize; 2] {
    let mut most = [0; 2];
    let [mut out, mut other] = [vec![0; ROOM], vec![0; ROOM]];
    for made in steps::all() {
        let Call { n, own, event, a, b, state, input, .. } = made.call();
        let [mut first, mut second] = [state.to_vec(), state.to_vec()];
        let ours = used(&mut || {
            black_box(compare::binding::step(n, own, event, a, b, &mut first, input, &mut out));
        });
        let theirs = used(&mut || {
            black_box(step::step(n, own, event, a, b, &mut second, input, &mut other).written);
        });
        most = [most[0].max(ours), most[1].max(theirs)];
    }
    most
}

fn reading_depths() -> [usize; 2] {
    let text = append(LIMIT).text();
    let ours = used(&mut || {
        black_box(compare::binding::read_message(&text, &mut [0; FIELDS]));
    });
    let theirs = used(&mut || {
        black_box(message::read(&text).message.is_ok());
    });
    [ours, theirs]
}

fn writing_depths() -> [usize; 2] {
    let sample = append(LIMIT);
    let message = message_of(&sample.fields).expect("a legal sample");
    let entries = sample.entries();
    let mut out = vec![0; ROOM];
    let ours = used(&mut || {
        black_box(compare::binding::write_message(&sample.fields, &sample.rows, &mut out));
    });
    let theirs = used(&mut || {
        black_box(message::write(&message, entries.iter().copied(), &mut out).written);
    });
    [ours, theirs]
}

pub fn print() {
    table::head("Stack", &["", "proved", "plain Rust"]);
    let rows = [
        ("reading the longest append", reading_depths()),
        ("writing the longest append", writing_depths()),
        ("a step", step_depths()),
    ];
    for (what, depths) in rows {
        let [ours, theirs] = depths.map(|depth| table::number(depth as f64) + " bytes");
        table::row(&[what, &ours, &theirs]);
    }
}
