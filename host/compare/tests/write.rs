//! Messages, written alone: the proved library and the independent program give the same answers and leave the same bytes, and what is
//! written is read back. `KRITNAMON_ROUNDS=50` makes a longer run of it, `KRITNAMON_SEED` another one; the seed is printed.

use compare::binding::outcomes::Outcomes;
use compare::binding::watched::Watched;
use compare::binding::{Answer, read_message, write_message};
use compare::generator::damage::{self, EDGES, row_changes};
use compare::generator::messages::{FIELDS, ROOM, Sample, message_of, random, rows, shapes};
use compare::generator::rng::{Rng, rounds, seed};
use image::{ROW_SIZE, number_at, put_number};
use independent::{Outcome, message};

/// What the independent program answers to these numbers and rows, and writes: its writer takes a message, so what makes none is refused here.
fn told(numbers: &[u32], rows: &[u8], out: &mut [u8]) -> Answer {
    let refused = |outcome| Answer::new(outcome, 0);
    if out.len() < ROOM {
        return refused(Outcome::ShortOutput);
    }
    let Ok(fields) = <[u32; FIELDS]>::try_from(numbers) else { return refused(Outcome::BadMessage) };
    let Some(message) = message_of(&fields) else { return refused(Outcome::BadMessage) };
    if rows.len() as u64 != u64::from(fields[7]) * ROW_SIZE as u64 {
        return refused(Outcome::BadMessage);
    }
    let sample = Sample { fields, rows: rows.to_vec() };
    let answer = message::write(&message, sample.entries().into_iter(), out);
    Answer::new(answer.outcome, answer.written as u32)
}

/// Writes with both into so much room, compares, and gives the outcome. What was written is read back.
fn compare_in(numbers: &[u32], rows: &[u8], room: usize) -> Outcome {
    let before: Vec<u8> = (0..room).map(|index| index as u8 ^ 0x5a).collect();
    let mut theirs = before.clone();
    let expected = told(numbers, rows, &mut theirs);
    let mut ours = Watched::new(&before);
    let answer = write_message(numbers, rows, ours.lend());
    assert_eq!(answer, expected, "{numbers:?}, {} bytes of rows, {room} of output", rows.len());
    assert!(ours.bytes() == theirs, "other bytes: {numbers:?}");
    if answer.outcome == Outcome::Done {
        let mut read = [0; FIELDS];
        let written = &theirs[..answer.second as usize];
        assert_eq!(read_message(written, &mut read).outcome, Outcome::Done, "{numbers:?}");
        assert_eq!(read, numbers);
    }
    answer.outcome
}

fn compare(sample: &Sample) -> Outcome {
    compare_in(&sample.fields, &sample.rows, ROOM)
}

#[test]
fn every_shape_is_written_alike() {
    for sample in shapes() {
        assert_eq!(compare(&sample), Outcome::Done, "{:?}", sample.fields);
    }
}

/// What is refused as no message, for each of its reasons: a term of 0, no such type, a number too few, a row too many.
fn illegal(sample: &Sample) -> [(Vec<u32>, Vec<u8>); 4] {
    let Sample { fields, rows: entries } = sample;
    let with = |at: usize, number: u32| {
        let mut changed = fields.to_vec();
        changed[at] = number;
        changed
    };
    let more = [&entries[..], &rows(1, 5, 5)].concat();
    [
        (with(1, 0), entries.clone()),
        (with(0, 7), entries.clone()),
        (fields[..FIELDS - 1].to_vec(), entries.clone()),
        (fields.to_vec(), more),
    ]
}

#[test]
fn every_room_is_answered_alike() {
    for sample in shapes() {
        for room in [0, 1, ROOM - 1, ROOM, ROOM + 1, 4 * ROOM] {
            let short = room < ROOM;
            let legal = if short { Outcome::ShortOutput } else { Outcome::Done };
            let refused = if short { Outcome::ShortOutput } else { Outcome::BadMessage };
            assert_eq!(compare_in(&sample.fields, &sample.rows, room), legal);
            for (numbers, entries) in illegal(&sample) {
                assert_eq!(compare_in(&numbers, &entries, room), refused, "{numbers:?}");
            }
        }
    }
}

/// Each number of each shape, numbers that its type does not have among them, at and next to every edge.
#[test]
fn every_changed_number_is_written_alike() {
    let mut counts = Outcomes::default();
    for sample in shapes() {
        for at in 0..FIELDS {
            let old = sample.fields[at];
            for other in
                EDGES.into_iter().chain([old.wrapping_sub(1), old.wrapping_add(1), old ^ 0x8000_0000])
            {
                let mut changed = sample.clone();
                changed.fields[at] = other;
                counts[compare(&changed)] += 1;
            }
        }
    }
    println!("{counts:?}");
    assert!(counts[Outcome::Done] >= 1_000 && counts[Outcome::BadMessage] >= 1_000);
}

#[test]
fn a_number_that_the_type_does_not_have_is_refused() {
    let absent: [&[usize]; 6] = [&[6, 7], &[6], &[4, 5, 6, 7], &[], &[5, 6, 7], &[5, 6, 7]];
    for sample in shapes() {
        for &at in absent[sample.fields[0] as usize - 1] {
            let mut changed = sample.clone();
            changed.fields[at] = 1;
            assert_eq!(compare(&changed), Outcome::BadMessage, "{:?}", changed.fields);
            // Not even with the row that the number would count.
            assert_eq!(
                compare_in(&changed.fields, &rows(1, 1, 1), ROOM),
                Outcome::BadMessage,
                "{:?}",
                changed.fields
            );
        }
    }
}

#[test]
fn other_counts_of_numbers_are_refused() {
    for sample in shapes() {
        let longer = [&sample.fields[..], &[0, 0]].concat();
        for count in [0, 1, 7, 9, 10] {
            assert_eq!(compare_in(&longer[..count], &sample.rows, ROOM), Outcome::BadMessage);
        }
    }
}

#[test]
fn other_lengths_of_rows_are_refused() {
    for sample in shapes() {
        let length = sample.rows.len();
        let longer = [&sample.rows[..], &rows(2, 5, 5)].concat();
        for other in [
            0,
            1,
            length.saturating_sub(ROW_SIZE),
            length.saturating_sub(1),
            length + 1,
            length + ROW_SIZE,
            length + 2 * ROW_SIZE,
        ] {
            let expected = if other == length { Outcome::Done } else { Outcome::BadMessage };
            assert_eq!(compare_in(&sample.fields, &longer[..other], ROOM), expected, "{:?}", sample.fields);
        }
    }
}

/// Counts whose rows would be as many as there are, were the product cut to 32 bits.
#[test]
fn counts_that_wrap_around_are_refused() {
    for sample in shapes().into_iter().filter(|sample| [2, 4].contains(&sample.fields[0])) {
        for wrap in [1 << 30, 1 << 31, 3 << 30] {
            let mut changed = sample.clone();
            changed.fields[7] += wrap;
            assert_eq!(compare(&changed), Outcome::BadMessage);
        }
    }
}

fn change_row(sample: &Sample, start: usize, counts: &mut Outcomes) {
    let term = number_at(&sample.rows, start);
    for (at, number) in row_changes(term) {
        let mut changed = sample.clone();
        put_number(&mut changed.rows, start + at, number);
        counts[compare(&changed)] += 1;
    }
}

#[test]
fn every_changed_row_is_written_alike() {
    let mut counts = Outcomes::default();
    for sample in shapes() {
        // Of a long list the first and last rows, and some between.
        let last = sample.rows.len().saturating_sub(ROW_SIZE);
        let starts = (0..sample.rows.len()).step_by(ROW_SIZE);
        for start in
            starts.filter(|&start| start < 2 * ROW_SIZE || start + ROW_SIZE > last || start % 41 == 0)
        {
            change_row(&sample, start, &mut counts);
        }
    }
    println!("{counts:?}");
    assert!(counts[Outcome::Done] >= 500 && counts[Outcome::BadMessage] >= 2_000);
}

#[test]
fn random_messages_are_written_alike() {
    let mut rng = Rng::seeded(seed());
    let mut counts = Outcomes::default();
    for _ in 0..20_000 * rounds() {
        let mut sample = random(&mut rng);
        assert_eq!(compare(&sample), Outcome::Done);
        for _ in 0..1 + rng.below(2) {
            damage::sample(&mut rng, &mut sample);
            counts[compare(&sample)] += 1;
        }
    }
    println!("{counts:?}");
    assert!(counts[Outcome::Done] >= 1_000 && counts[Outcome::BadMessage] >= 1_000);
}
