//! Every rule of "Legal state": an accepted and a refused image. And that there is one image for each state.

mod common;
use common::*;

const ONE: At = At(3, 1);

#[track_caller]
fn accept_at(at: At, image: &Image) {
    assert!(legal(image, at) && at.accepts(&image.bytes()), "refused: {image:?}");
}

#[track_caller]
fn refuse_at(at: At, image: &Image) {
    assert!(!legal(image, at) && !at.accepts(&image.bytes()), "accepted: {image:?}");
}

/// Legal or not in its kept parts, so at a restart too.
#[track_caller]
fn accept(image: &Image) {
    accept_at(ONE, image);
    assert!(ONE.restarts(&image.bytes()));
}

#[track_caller]
fn refuse(image: &Image) {
    refuse_at(ONE, image);
    assert!(!ONE.restarts(&image.bytes()));
}

fn asks() -> Image {
    let mut image = candidate(6, 4, &[1, 4], &[1, 3]);
    image.gathered = vec![(5, command(8)), (1, command(9))];
    image
}

// ---- kept parts

#[test]
fn ballot_and_term() {
    accept(&Image::default());
    accept(&follower(2, 2, 0, &[]));
    refuse(&follower(2, 3, 0, &[]));
    refuse(&follower(0, 1, 0, &[]));
    accept(&follower(u32::MAX, u32::MAX, 0, &[u32::MAX]));
}

#[test]
fn chosen_and_length() {
    accept(&follower(2, 2, 2, &[1, 2]));
    refuse(&follower(2, 2, 3, &[1, 2]));
    refuse(&follower(2, 2, u32::MAX, &[1, 2]));
    accept(&follower(2, 2, 257, &[1; 257]));
    accept(&follower(2, 2, 1_024, &[1; 1_024]));
    refuse(&follower(2, 2, 1_025, &[1; 1_024]));
    for length in [1_025, 1 << 16, u32::MAX] {
        let mut long = follower(2, 2, 1_024, &[1; 1_024]).bytes();
        long[12..16].copy_from_slice(&u32::to_be_bytes(length));
        assert!(!ONE.accepts(&long) && !ONE.restarts(&long));
    }
}

#[test]
fn entry_terms_and_commands() {
    accept(&follower(5, 4, 0, &[1, 1, 3, 4]));
    refuse(&follower(5, 4, 0, &[0, 1]));
    refuse(&follower(5, 4, 0, &[1, 3, 2]));
    refuse(&follower(5, 4, 0, &[1, 5]));
    refuse(&follower(5, 0, 0, &[1]));
    for at in [0, 1] {
        for bad in [
            "00000001000000fa3f00000000000000",
            "00030001ffffffff3f00000000000000",
            "00030001000000fa8000000000000000",
        ] {
            let mut image = follower(5, 4, 0, &[1, 2]);
            image.log[at].1 = bytes(bad);
            refuse(&image);
        }
    }
    let mut full = follower(1, 1, 1_024, &[1; 1_024]);
    full.log[1_023].0 = 2;
    refuse(&full);
}

// ---- lost parts

#[test]
fn follower_holds_nothing() {
    let hub = follower(5, 4, 1, &[1, 4]);
    accept_at(ONE, &hub);
    for at in 0..7 {
        let mut image = hub.clone();
        image.voters[at] = 1;
        refuse_at(ONE, &image);
        let mut image = hub.clone();
        image.confirmed[at] = 1;
        refuse_at(ONE, &image);
    }
    refuse_at(ONE, &Image { gathered: vec![(1, command(1))], ..hub.clone() });
    for role in [3, 4, 128, 255] {
        refuse_at(ONE, &Image { role, ..hub.clone() });
    }
}

#[test]
fn candidate_ballot_below_term() {
    accept_at(ONE, &candidate(5, 4, &[1, 4], &[1]));
    refuse_at(ONE, &candidate(4, 4, &[1, 4], &[1]));
    refuse_at(ONE, &candidate(0, 0, &[], &[1]));
}

#[test]
fn candidate_voters() {
    let hub = |voters: &[usize]| candidate(5, 4, &[1, 4], voters);
    refuse_at(ONE, &hub(&[]));
    refuse_at(ONE, &hub(&[2]));
    accept_at(At(3, 2), &hub(&[2]));
    refuse_at(ONE, &hub(&[1, 2]));
    refuse_at(ONE, &hub(&[1, 4]));
    accept_at(At(5, 1), &hub(&[1, 5]));
    refuse_at(At(5, 1), &hub(&[1, 2, 3]));
    refuse_at(At(5, 1), &hub(&[1, 6]));
    refuse_at(At(5, 1), &hub(&[2, 3]));
    accept_at(At(7, 7), &hub(&[1, 2, 7]));
    refuse_at(At(7, 7), &hub(&[1, 2, 3, 7]));
    for value in [2, 3, 128, 255] {
        let mut image = hub(&[1]);
        image.voters[0] = value;
        refuse_at(ONE, &image);
        let mut image = hub(&[1]);
        image.voters[1] = value;
        refuse_at(At(5, 1), &image);
    }
}

#[test]
fn candidate_gathered() {
    let hub =
        |gathered: &[(u32, Command)]| Image { gathered: gathered.to_vec(), ..candidate(6, 4, &[1, 4], &[1]) };
    accept_at(ONE, &hub(&[(5, command(1)), (1, command(2)), (4, command(3))]));
    refuse_at(ONE, &hub(&[(1, command(1)), (0, command(2))]));
    refuse_at(ONE, &hub(&[(6, command(1))]));
    refuse_at(ONE, &hub(&[(1, command(1)), (7, command(2))]));
    refuse_at(ONE, &hub(&[(1, command(1)), (1, [0; 16])]));
    accept_at(ONE, &hub(&vec![(1, command(1)); 1_022]));
    for count in [1_023, 1_024, 1 << 16, u32::MAX, u32::MAX - 1] {
        let mut over = hub(&vec![(1, command(1)); 1_022]).bytes();
        over[16..20].copy_from_slice(&u32::to_be_bytes(count));
        assert!(!ONE.accepts(&over), "{count}");
    }
}

#[test]
fn candidate_confirms_nothing() {
    for at in 0..7 {
        let mut image = candidate(5, 4, &[1, 4], &[1]);
        image.confirmed[at] = 1;
        refuse_at(ONE, &image);
    }
}

#[test]
fn leader_ballot_is_term() {
    accept_at(ONE, &leader(5, 0, &[1, 5], &[2]));
    refuse_at(ONE, &Image { ballot: 4, ..leader(5, 0, &[1, 4], &[2]) });
    refuse_at(ONE, &leader(0, 0, &[], &[]));
    accept_at(ONE, &leader(1, 0, &[], &[]));
}

#[test]
fn leader_confirmed() {
    let hub = |confirmed: &[u32]| leader(5, 0, &[1, 5], confirmed);
    accept_at(ONE, &hub(&[2, 2, 0]));
    refuse_at(ONE, &hub(&[2, 3, 0]));
    refuse_at(ONE, &hub(&[2, 0, u32::MAX]));
    refuse_at(ONE, &hub(&[1, 2, 2]));
    refuse_at(ONE, &hub(&[3, 2, 2]));
    refuse_at(At(3, 2), &hub(&[2, 1, 2]));
    refuse_at(ONE, &hub(&[2, 0, 0, 1]));
    accept_at(At(5, 1), &hub(&[2, 0, 0, 1]));
    refuse_at(At(5, 1), &hub(&[2, 0, 0, 1, 0, 1]));
    accept_at(At(7, 7), &hub(&[2, 0, 0, 1, 0, 1, 2]));
    refuse_at(At(7, 7), &hub(&[2, 0, 0, 1, 0, 1, 0]));
}

#[test]
fn leader_holds_no_votes() {
    for at in 0..7 {
        let mut image = leader(5, 0, &[1, 5], &[2]);
        image.voters[at] = 1;
        refuse_at(At(7, 1), &image);
    }
    refuse_at(ONE, &Image { gathered: vec![(1, command(1))], ..leader(5, 0, &[1, 5], &[2]) });
}

// ---- one image for each state

/// Every bit of the head, against the second opinion.
#[test]
fn every_byte_of_a_head_changed() {
    let at = At(5, 1);
    let mut refusals = 0;
    for image in [follower(6, 4, 1, &[1, 4]), asks(), leader(6, 1, &[1, 4], &[2, 1])] {
        let state = image.bytes();
        for place in 0..56 {
            let values = (0..8)
                .map(|bit| state[place] ^ (1 << bit))
                .chain([!state[place], state[place].wrapping_add(1)]);
            for value in values {
                let mut changed = state.clone();
                changed[place] = value;
                let expected = Image::read(&changed).is_some_and(|image| legal(&image, at));
                assert_eq!(at.accepts(&changed), expected, "byte {place}: {value}");
                refusals += u32::from(!expected);
            }
        }
    }
    assert!(refusals > 1_000, "{refusals}");
}

#[test]
fn every_unused_byte_is_zero() {
    for image in [Image::default(), follower(6, 4, 1, &[1, 4]), asks(), leader(6, 1, &[1, 4], &[2, 1])] {
        let state = image.bytes();
        let used = 56 + 20 * (image.log.len() + image.gathered.len());
        for place in (used..STATE_SIZE).step_by(7).chain([used, STATE_SIZE - 1]) {
            let mut changed = state.clone();
            changed[place] = 1;
            assert!(!At(5, 1).accepts(&changed), "byte {place}");
        }
    }
}

#[test]
fn every_row_byte_counts() {
    let state = asks().bytes();
    for place in 56..56 + 4 * 20 {
        for bit in 0..8 {
            let mut changed = state.clone();
            changed[place] ^= 1 << bit;
            let expected = Image::read(&changed).is_some_and(|image| legal(&image, At(5, 1)));
            assert_eq!(At(5, 1).accepts(&changed), expected, "byte {place}, bit {bit}");
        }
    }
}

// ---- restart

#[test]
fn restart_ignores_the_lost_parts() {
    let kept = follower(6, 4, 1, &[1, 4]);
    for fill in [1, 2, 0x80, 0xff] {
        for range in [16..20, 20..21, 21..28, 28..56, 96..STATE_SIZE, STATE_SIZE - 1..STATE_SIZE, 16..56] {
            let mut state = kept.bytes();
            state[range].fill(fill);
            let after = call(3, 1, RESTART, 0, 0, &state, b"", OUT_SIZE);
            done(&after, &kept, "");
        }
    }
}

#[test]
fn restart_checks_the_kept_parts() {
    let mut state = follower(6, 4, 1, &[1, 4]).bytes();
    state[16..56].fill(0xff);
    state[96..].fill(0xff);
    for (place, value) in
        [(3, 3), (7, 7), (11, 3), (15, 3), (14, 2), (59, 0), (59, 5), (79, 5), (61, 0), (67, 0)]
    {
        let mut changed = state.clone();
        changed[place] = value;
        assert!(!ONE.restarts(&changed), "byte {place}: {value}");
    }
    assert!(ONE.restarts(&state));
}
