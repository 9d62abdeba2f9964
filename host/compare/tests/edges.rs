//! The step at its edges: every byte of a state changed, and every size, number and input that is at or past a limit. Both programs give
//! the same answers and leave the same bytes. `KRITNAMON_SEED` takes other states; the seed is printed.

use compare::binding::both::{Call, Tally};
use compare::binding::call::{PROPOSE, RECEIVE, RESTART, SEND, START};
use compare::generator::damage::row_changes;
use compare::generator::messages::{ROOM, Sample, rows, shapes};
use compare::generator::rng::{Rng, seed};
use compare::generator::{aimed, states};
use image::{
    CANDIDATE, CHOSEN_AT, FOLLOWER, HEAD_SIZE, Image, LEADER, ROW_SIZE, STATE_SIZE, bytes_of_rows, number_at,
    put_number, rows_of_bytes,
};
use independent::{Group, LIMIT, Outcome};

/// A hub in a state, with a message and a command for it.
struct Scene {
    group: Group,
    image: Image,
    text: Vec<u8>,
    command: [u8; 16],
}

impl Scene {
    fn new(rng: &mut Rng, group: Group, image: Image) -> Scene {
        let text = aimed::message(rng, group, &image).lines();
        Scene { group, image, text, command: states::command(rng) }
    }

    /// An event at these bytes instead of the state's own.
    fn call<'a>(&'a self, event: u32, state: &'a [u8]) -> Call<'a> {
        let (n, own) = (self.group.size() as u32, self.group.own().0);
        let input = if event == PROPOSE { &self.command[..] } else { &self.text };
        Call { n, own, event, a: own % n + 1, b: 0, state, input, room: ROOM }
    }

    /// A receive and a restart at these bytes instead of the state's own.
    fn at_bytes(&self, tally: &mut Tally, bytes: &[u8]) {
        tally.compare(&self.call(RECEIVE, bytes));
        tally.compare(&self.call(RESTART, bytes));
    }
}

/// A state that is made again until it has a log of some entries, and as a candidate gathered ones.
fn with_log(rng: &mut Rng, make: impl Fn(&mut Rng) -> Image) -> Image {
    loop {
        let image = make(rng);
        let gathered = image.role != CANDIDATE || !image.gathered.is_empty();
        if (2..=40).contains(&image.length()) && gathered {
            return image;
        }
    }
}

/// A follower, a candidate and a leader of each size of a group.
fn scenes(rng: &mut Rng) -> Vec<Scene> {
    let mut all = Vec::new();
    for n in [3, 5, 7] {
        let group = Group::new(n, 1 + rng.up_to(n - 1)).expect("a group");
        let term = 3 + rng.up_to(6);
        let images = [
            with_log(rng, |rng| states::follower(rng, term)),
            with_log(rng, |rng| states::candidate(rng, group, term)),
            with_log(rng, |rng| states::leader(rng, group, term)),
        ];
        all.extend(images.map(|image| Scene::new(rng, group, image)));
    }
    all
}

#[test]
fn every_changed_byte_of_a_head_is_answered_alike() {
    let mut tally = Tally::default();
    for scene in scenes(&mut Rng::seeded(seed())) {
        let mut bytes = scene.image.bytes();
        for at in 0..HEAD_SIZE {
            let old = bytes[at];
            for other in [0, 1, 2, 3, 0x7f, 0x80, 0xff, old.wrapping_add(1), old.wrapping_sub(1), old ^ 0x10]
            {
                bytes[at] = other;
                scene.at_bytes(&mut tally, &bytes);
            }
            bytes[at] = old;
        }
    }
    println!("{tally:?}");
    assert!(tally.calls >= 10_000 && tally.outcomes[Outcome::BadState] >= 5_000);
}

fn change_row(scene: &Scene, tally: &mut Tally, index: u32) {
    let bytes = scene.image.bytes();
    let start = HEAD_SIZE + index as usize * ROW_SIZE;
    let term = number_at(&bytes, start);
    for (at, number) in row_changes(term) {
        let mut changed = bytes.clone();
        put_number(&mut changed, start + at, number);
        scene.at_bytes(tally, &changed);
    }
}

/// A leader of a full log, and a candidate whose log and gathered entries are 1,024 together.
fn full_scenes(rng: &mut Rng) -> [Scene; 2] {
    let group = Group::new(5, 2).expect("a group");
    let log = states::rising(rng, LIMIT, 1, 6);
    let confirmed = [4, LIMIT, 0, 0, 9, 0, 0];
    let leads = Image { term: 6, ballot: 6, chosen: 5, role: LEADER, confirmed, log, ..Image::default() };
    let log = states::rising(rng, LIMIT - 90, 1, 6);
    let gathered = states::rising(rng, 90, 1, 7);
    let voters = [0, 1, 0, 1, 0, 0, 0];
    let asks = Image { term: 8, ballot: 6, role: CANDIDATE, voters, log, gathered, ..Image::default() };
    [leads, asks].map(|image| Scene::new(rng, group, image))
}

#[test]
fn every_changed_row_is_answered_alike() {
    let mut rng = Rng::seeded(seed());
    let mut tally = Tally::default();
    for scene in full_scenes(&mut rng) {
        (0..LIMIT).for_each(|index| change_row(&scene, &mut tally, index));
    }
    println!("{tally:?}");
    assert!(tally.outcomes[Outcome::BadState] >= 5_000 && tally.outcomes[Outcome::Done] >= 500);
}

#[test]
fn every_byte_behind_the_rows_is_looked_at_alike() {
    let mut tally = Tally::default();
    let mut unused = 0;
    for scene in scenes(&mut Rng::seeded(seed())).iter().take(3) {
        let mut bytes = scene.image.bytes();
        let used = HEAD_SIZE + (scene.image.log.len() + scene.image.gathered.len()) * ROW_SIZE;
        unused += (STATE_SIZE - used) as u64;
        for at in used..STATE_SIZE {
            bytes[at] = 1;
            scene.at_bytes(&mut tally, &bytes);
            bytes[at] = 0;
        }
    }
    println!("{tally:?}");
    // A restart does not look at them.
    assert!(
        unused > 0
            && tally.outcomes[Outcome::BadState] == unused
            && tally.done_by_event[RESTART as usize] == unused
    );
}

#[test]
fn other_lengths_of_a_state_are_refused_alike() {
    let mut tally = Tally::default();
    for scene in scenes(&mut Rng::seeded(seed())) {
        let bytes = [scene.image.bytes(), scene.image.bytes()].concat();
        for length in [
            0,
            1,
            HEAD_SIZE - 1,
            HEAD_SIZE,
            HEAD_SIZE + ROW_SIZE,
            STATE_SIZE - ROW_SIZE,
            STATE_SIZE - 1,
            STATE_SIZE + 1,
            2 * STATE_SIZE,
        ] {
            (START..=RECEIVE).for_each(|event| drop(tally.compare(&scene.call(event, &bytes[..length]))));
        }
    }
    assert_eq!(tally.outcomes[Outcome::BadState], tally.calls);
}

/// Small numbers, one next to a wrap-around, and some that are small once cut to fewer bits.
fn numbers() -> impl Iterator<Item = u32> {
    (0..=9).chain([255, 259, 65_539, 0x8000_0003, u32::MAX])
}

#[test]
fn every_group_and_event_is_answered_alike() {
    let mut tally = Tally::default();
    let scenes = scenes(&mut Rng::seeded(seed()));
    for scene in &scenes {
        // A fresh hub's bytes are legal in every group, so that all that is refused is refused for its numbers.
        for state in [scene.image.bytes(), vec![0; STATE_SIZE]] {
            for (n, own) in numbers().flat_map(|n| numbers().map(move |own| (n, own))) {
                for event in numbers() {
                    tally.compare(&Call { n, own, event, ..scene.call(event, &state) });
                }
            }
        }
    }
    println!("{tally:?}");
    assert!(tally.outcomes[Outcome::NotKnown] >= 10_000 && tally.outcomes[Outcome::Done] >= 300);
}

#[test]
fn every_room_is_answered_alike() {
    let mut tally = Tally::default();
    for scene in scenes(&mut Rng::seeded(seed())) {
        let state = scene.image.bytes();
        let mut damaged = state.clone();
        damaged[HEAD_SIZE..HEAD_SIZE + 4].fill(0);
        for room in [0, 1, 15, 16, 16_384, ROOM - 1, ROOM, ROOM + 1, ROOM + 15, 2 * ROOM] {
            for event in START..=RECEIVE {
                tally.compare(&Call { room, ..scene.call(event, &state) });
                tally.compare(&Call { room, ..scene.call(event, &damaged) });
                tally.compare(&Call { room, input: b"", ..scene.call(event, &state) });
            }
        }
    }
    println!("{tally:?}");
    let given = [Outcome::Done, Outcome::BadState, Outcome::ShortOutput, Outcome::BadMessage];
    assert!(given.iter().all(|&outcome| tally.outcomes[outcome] >= 30));
}

#[test]
fn every_send_is_answered_alike() {
    let mut tally = Tally::default();
    let mut rng = Rng::seeded(seed());
    for scene in scenes(&mut rng).iter().chain(&full_scenes(&mut rng)) {
        let state = scene.image.bytes();
        let length = scene.image.length();
        for peer in numbers() {
            for prev in (0..=length + 2).chain([LIMIT, LIMIT + 1, 65_536, u32::MAX]) {
                tally.compare(&Call { a: peer, b: prev, ..scene.call(SEND, &state) });
            }
        }
    }
    println!("{tally:?}");
    assert!(
        tally.outcomes[Outcome::Done] >= 1_000
            && tally.outcomes[Outcome::OutOfRange] >= 1_000
            && tally.outcomes[Outcome::WrongRole] >= 1_000
    );
}

#[test]
fn every_changed_proposal_is_answered_alike() {
    let mut tally = Tally::default();
    for scene in scenes(&mut Rng::seeded(seed())) {
        let state = scene.image.bytes();
        let twice = [scene.command, scene.command].concat();
        for length in 0..=twice.len() {
            tally.compare(&Call { input: &twice[..length], ..scene.call(PROPOSE, &state) });
        }
        for (at, other) in (0..16).flat_map(|at| (0..=255).map(move |other| (at, other))) {
            let mut command = scene.command;
            command[at] = other;
            tally.compare(&Call { input: &command, ..scene.call(PROPOSE, &state) });
        }
    }
    println!("{tally:?}");
    assert!(tally.outcomes[Outcome::Done] >= 200 && tally.outcomes[Outcome::BadCommand] >= 2_000);
}

/// A command of this kind and duration; its gains, if it has any, are 0.
fn lasting(kind: u32, duration: u32) -> [u8; 16] {
    let mut command = [0; 16];
    put_number(&mut command, 0, 3 << 16 | kind);
    put_number(&mut command, 4, duration);
    command
}

/// The durations from 0 to past two rounds of the low byte, and those next to every other edge.
fn durations() -> impl Iterator<Item = u32> {
    (0..=600).chain([65_535, 65_536, 65_555, 599_999, 600_000, 600_001, 0x7fff_ffff, 0x8000_0014, u32::MAX])
}

/// Of each kind, at every scene and at a full log: a stop, and what is neither too short nor too long, is proposed. Where the hub does not lead
/// that is told first, and a full log last.
#[test]
fn every_duration_is_proposed_alike() {
    let mut rng = Rng::seeded(seed());
    let mut tally = Tally::default();
    for scene in scenes(&mut rng).iter().chain(&full_scenes(&mut rng)) {
        let state = scene.image.bytes();
        let room = if scene.image.length() < LIMIT { Outcome::Done } else { Outcome::LogFull };
        for (kind, duration) in (0..4).flat_map(|kind| durations().map(move |duration| (kind, duration))) {
            let felt = match kind {
                0 => duration == 0,
                1 | 2 => (20..=600_000).contains(&duration),
                _ => false,
            };
            let expected = match scene.image.role {
                LEADER if felt => room,
                LEADER => Outcome::BadCommand,
                _ => Outcome::WrongRole,
            };
            let after =
                tally.compare(&Call { input: &lasting(kind, duration), ..scene.call(PROPOSE, &state) });
            assert_eq!(after.outcome, expected, "kind {kind}, {duration} ms");
        }
    }
    println!("{tally:?}");
    assert!(tally.outcomes[Outcome::Done] >= 3_000 && tally.outcomes[Outcome::LogFull] >= 1_000);
}

/// A leader of the first term holds this command and sends it to hub 2, which takes it, restarts, and tells it to hub 3, which leads with
/// it at the second. Gives the log that hub 3 has then.
fn handed_on(tally: &mut Tally, command: [u8; 16]) -> Vec<(u32, [u8; 16])> {
    let mut step = |own, event, state: &[u8], input: &[u8]| {
        let after = tally.compare(&Call { n: 3, own, event, a: 2, b: 0, state, input, room: ROOM });
        assert_eq!(after.outcome, Outcome::Done, "hub {own}, event {event}, {command:02x?}");
        after
    };
    let confirmed = [1, 0, 0, 0, 0, 0, 0];
    let log = vec![(1, command)];
    let leads = Image { term: 1, ballot: 1, role: LEADER, confirmed, log, ..Image::default() };
    let append = step(1, SEND, &leads.bytes(), b"").message;
    let taken = step(2, RECEIVE, &Image::default().bytes(), &append).state;
    let back = step(2, RESTART, &taken, b"").state;
    let asks = step(3, START, &Image { term: 1, ballot: 1, ..Image::default() }.bytes(), b"");
    let yes = step(2, RECEIVE, &back, &asks.message).message;
    let led = step(3, RECEIVE, &asks.state, &yes).state;
    Image::read(&led).expect("a state").log
}

/// What may not be proposed is held and handed on alike, if it is legal.
#[test]
fn short_commands_are_held_alike() {
    let mut tally = Tally::default();
    for (kind, duration) in [1, 2].into_iter().flat_map(|kind| (1..20).map(move |duration| (kind, duration)))
    {
        let command = lasting(kind, duration);
        assert_eq!(handed_on(&mut tally, command), [(2, command)]);
    }
    assert_eq!(tally.outcomes[Outcome::Done], 6 * 2 * 19);
}

/// A leader with a log of three, and what each hub has confirmed of it: the digits of `lengths` in base four.
fn leader_of_three(lengths: u32) -> Image {
    let log = rows_of_bytes(&rows(3, 1, 2));
    let confirmed = std::array::from_fn(|hub| lengths >> (2 * hub) & 3);
    Image { term: 2, ballot: 2, role: LEADER, confirmed, log, ..Image::default() }
}

/// Whatever lengths the hubs have confirmed, an append-yes of any hub with any end is answered alike.
#[test]
fn every_confirmed_length_counts_alike() {
    let mut tally = Tally::default();
    let mut moved = 0;
    for (n, own) in [(3, 2), (5, 1), (7, 7)] {
        let images = (0..1 << (2 * n)).map(leader_of_three);
        // Its own length is the log's.
        for image in images.filter(|image| image.confirmed[own as usize - 1] == 3) {
            let state = &image.bytes();
            for (from, end) in (1..=n).flat_map(|from| (0..=3).map(move |end| (from, end))) {
                let input = &Sample { fields: [5, 2, from, own, end, 0, 0, 0], rows: Vec::new() }.lines();
                let call = Call { n, own, event: RECEIVE, a: 0, b: 0, state, input, room: ROOM };
                moved += u64::from(number_at(&tally.compare(&call).state, CHOSEN_AT) > 0);
            }
        }
    }
    println!("{tally:?}, chosen moved {moved} times");
    assert!(moved >= 20_000 && tally.outcomes[Outcome::NothingNew] >= 20_000);
}

/// The states of hub 2 at term 5, in every role, with every ballot, and with up to two entries.
fn asked(rng: &mut Rng) -> Vec<Image> {
    let mut all = Vec::new();
    for (ballot, length) in (0..=5).flat_map(|ballot| (0..=ballot.min(2)).map(move |length| (ballot, length)))
    {
        let kept = Image { term: 5, ballot, log: states::rising(rng, length, 1, ballot), ..Image::default() };
        let lost = match ballot {
            5 => Image { role: LEADER, confirmed: [0, length, 0, 0, 0, 0, 0], ..kept.clone() },
            _ => Image { role: CANDIDATE, voters: [0, 1, 0, 0, 0, 0, 0], ..kept.clone() },
        };
        all.extend([kept, lost]);
    }
    all
}

/// What a hub in this state answers to hub 1's request: yes if its ballot, or 0 with an empty log, is at most the request's.
fn vote(image: &Image, term: u32, last: u32, ballot: u32) -> Vec<u8> {
    let told = if image.log.is_empty() { 0 } else { image.ballot };
    if told > ballot || term <= image.term {
        return Sample { fields: [3, term.max(image.term), 2, 1, 0, 0, 0, 0], rows: Vec::new() }.lines();
    }
    let behind = image.log.get(last as usize..).unwrap_or(&[]);
    let fields = [2, term, 2, 1, last, told, 0, behind.len() as u32];
    Sample { fields, rows: bytes_of_rows(behind) }.lines()
}

/// The requests of every term up to the second above that hub's own: term, last and ballot. Ballot 0 goes with last 0.
fn requests() -> impl Iterator<Item = [u32; 3]> {
    let ballots = (1..=7).flat_map(|term| (0..term).map(move |ballot| (term, ballot)));
    ballots.flat_map(|(term, ballot)| (0..=3 * ballot.min(1)).map(move |last| [term, last, ballot]))
}

#[test]
fn every_vote_request_is_answered_alike() {
    let mut tally = Tally::default();
    for image in asked(&mut Rng::seeded(seed())) {
        let state = &image.bytes();
        for [term, last, ballot] in requests() {
            let input = &Sample { fields: [1, term, 1, 0, last, ballot, 0, 0], rows: Vec::new() }.lines();
            let call = Call { n: 3, own: 2, event: RECEIVE, a: 0, b: 0, state, input, room: ROOM };
            let after = tally.compare(&call);
            assert_eq!(after.message, vote(&image, term, last, ballot), "{image:?}");
            let follows = Image { term, role: FOLLOWER, voters: [0; 7], confirmed: [0; 7], ..image.clone() };
            assert!(after.outcome == Outcome::Stale || after.state == follows.bytes(), "{image:?}");
        }
    }
    println!("{tally:?}");
    assert!(tally.outcomes[Outcome::Done] >= 1_000 && tally.outcomes[Outcome::Stale] >= 1_000);
    assert!(tally.unblocked >= 100);
}

/// Every legal shape of a message, wherever it was meant for, and some texts that are none.
#[test]
fn every_shape_is_received_alike() {
    let mut tally = Tally::default();
    let mut texts: Vec<_> = shapes().iter().map(|sample| sample.text()).collect();
    texts.extend([vec![], vec![b'\n'; ROOM], vec![b'\n'; ROOM + 1], vec![0xff; 3 * ROOM]]);
    for scene in scenes(&mut Rng::seeded(seed())) {
        let state = scene.image.bytes();
        for text in &texts {
            for own in 1..=scene.group.size() as u32 {
                tally.compare(&Call { own, input: text, ..scene.call(RECEIVE, &state) });
            }
        }
    }
    println!("{tally:?}");
    assert!(tally.outcomes[Outcome::Done] >= 200 && tally.outcomes[Outcome::NotAddressed] >= 500);
}

/// What a follower stores of an append, and a candidate of a vote-yes: random commands, with terms of one to ten digits.
#[test]
fn random_entries_are_stored_alike() {
    let mut tally = Tally::default();
    let mut rng = Rng::seeded(seed());
    for term in [3, 30, 1_000_000, u32::MAX] {
        let follower = Image { term: term - 1, ..Image::default() };
        let candidate = Image { term, role: CANDIDATE, voters: [1, 0, 0, 0, 0, 0, 0], ..Image::default() };
        for _ in 0..40 {
            let count = 1 + rng.up_to(63);
            let entries = bytes_of_rows(&states::rising(&mut rng, count, 1, term - 1));
            let append = Sample { fields: [4, term, 2, 1, 0, 0, 0, count], rows: entries.clone() };
            let yes = Sample { fields: [2, term, 2, 1, 0, term - 1, 0, count], rows: entries };
            for (image, sample) in [(&follower, append), (&candidate, yes)] {
                let (state, input) = (image.bytes(), &sample.text());
                tally.compare(&Call {
                    n: 5,
                    own: 1,
                    event: RECEIVE,
                    a: 0,
                    b: 0,
                    state: &state,
                    input,
                    room: ROOM,
                });
            }
        }
    }
    println!("{tally:?}");
    assert!(tally.outcomes[Outcome::Done] >= 160);
}

#[test]
fn every_cut_text_is_received_alike() {
    let mut tally = Tally::default();
    let mut rng = Rng::seeded(seed());
    for scene in scenes(&mut rng) {
        let state = scene.image.bytes();
        for _ in 0..12 {
            let text = aimed::message(&mut rng, scene.group, &scene.image).lines();
            for length in (0..=text.len()).filter(|length| *length < 300 || text.len() - length < 60) {
                tally.compare(&Call { input: &text[..length], ..scene.call(RECEIVE, &state) });
            }
        }
    }
    println!("{tally:?}");
    assert!(tally.outcomes[Outcome::BadMessage] >= 3_000);
}
