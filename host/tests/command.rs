//! Commands read and written alone.

mod common;
use common::{bytes, command_legal};
use independent::Outcome;
use independent::command::{Case, Command, read, write};

fn legal(hex: &str) -> bool {
    let bytes = bytes(hex);
    let read = read(&bytes);
    assert_eq!(read.is_ok(), command_legal(&bytes), "{hex}");
    if let Ok(command) = read {
        let mut out = [0xa5; 20];
        assert_eq!(write(&command, &mut out).outcome, Outcome::Done);
        assert_eq!((&out[..16], &out[16..]), (&bytes[..], &[0xa5; 4][..]), "{hex}");
    }
    read.is_ok()
}

#[test]
fn cases_with_their_gains() {
    let read = |hex| read(&bytes(hex)).unwrap();
    let stop = Command { motor: 1, duration: 0, case: Case::Stop };
    assert_eq!(read("00010000000000000000000000000000"), stop);
    let buzz = Command { motor: 3, duration: 250, case: Case::Buzz(0.5) };
    assert_eq!(read("00030001000000fa3f00000000000000"), buzz);
    let ramp = Command { motor: 64, duration: 600_000, case: Case::Ramp(0.25, 1.0) };
    assert_eq!(read("00400002000927c03e8000003f800000"), ramp);
}

#[test]
fn motors_and_kinds() {
    assert!(legal("00010001000000013f00000000000000"));
    assert!(legal("00400001000000013f00000000000000"));
    assert!(!legal("00000001000000013f00000000000000"));
    assert!(!legal("00410001000000013f00000000000000"));
    assert!(!legal("01010001000000013f00000000000000"));
    assert!(!legal("ffff0001000000013f00000000000000"));
    assert!(!legal("00010003000000013f00000000000000"));
    assert!(!legal("00010100000000000000000000000000"));
    assert!(!legal("00010101000000013f00000000000000"));
    assert!(!legal("0001ffff000000013f00000000000000"));
}

#[test]
fn stop_carries_nothing() {
    assert!(legal("00050000000000000000000000000000"));
    assert!(!legal("00050000000000010000000000000000"));
    assert!(!legal("00050000000000000000000100000000"));
    assert!(!legal("00050000000000000000000000000001"));
}

#[test]
fn durations() {
    for kind in ["0001", "0002"] {
        for (duration, fits) in [
            ("00000001", true),
            ("000927c0", true),
            ("00000000", false),
            ("000927c1", false),
            ("7fffffff", false),
            ("80000000", false),
            ("80000001", false),
            ("ffffffff", false),
        ] {
            assert_eq!(legal(&format!("0005{kind}{duration}0000000000000000")), fits, "{kind} {duration}");
        }
    }
}

#[test]
fn gains() {
    for (gain, fits) in [
        ("00000000", true),
        ("00000001", true),
        ("3f7fffff", true),
        ("3f800000", true),
        ("3f800001", false),
        ("7f800000", false),
        ("7fc00000", false),
        ("80000000", false),
        ("bf000000", false),
        ("ffffffff", false),
    ] {
        assert_eq!(legal(&format!("0005000100000001{gain}00000000")), fits, "buzz {gain}");
        assert_eq!(legal(&format!("0005000200000001{gain}3f000000")), fits, "ramp from {gain}");
        assert_eq!(legal(&format!("00050002000000013f000000{gain}")), fits, "ramp to {gain}");
    }
    assert!(!legal("00050001000000013f00000000000001"));
    assert!(!legal("00050001000000013f0000003f000000"));
}

#[test]
fn length_when_read() {
    let legal = bytes("00010000000000000000000000000000");
    assert_eq!(read(&[]), Err(Outcome::BadCommand));
    assert_eq!(read(&legal[..15]), Err(Outcome::BadCommand));
    assert_eq!(read(&[&legal[..], &[0]].concat()), Err(Outcome::BadCommand));
    assert_eq!(read(&[0; 16]), Err(Outcome::BadCommand));
}

#[test]
fn refusals_when_written() {
    let good = Command { motor: 3, duration: 250, case: Case::Buzz(0.5) };
    let bad = [
        Command { motor: 0, ..good },
        Command { motor: 65, ..good },
        Command { duration: 0, ..good },
        Command { duration: -1, ..good },
        Command { duration: 600_001, ..good },
        Command { case: Case::Stop, ..good },
        Command { case: Case::Buzz(-0.0), ..good },
        Command { case: Case::Buzz(f32::NAN), ..good },
        Command { case: Case::Ramp(1.5, 0.0), ..good },
        Command { case: Case::Ramp(0.0, -1.0), ..good },
    ];
    let outcome = |command: &Command, room: usize| {
        let mut out = vec![0xa5; room];
        let answer = write(command, &mut out);
        assert!(out[answer.written..].iter().all(|&byte| byte == 0xa5));
        (answer.outcome.number(), answer.written)
    };
    assert_eq!(outcome(&good, 16), (0, 16));
    assert_eq!(outcome(&good, 15), (3, 0));
    assert_eq!(outcome(&good, 0), (3, 0));
    for command in &bad {
        assert_eq!(outcome(command, 16), (10, 0), "{command:?}");
        assert_eq!(outcome(command, 15), (3, 0), "{command:?}");
    }
}
