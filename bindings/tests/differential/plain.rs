//! The plain Rust of the benchmark against the reference: both runs, the request
//! judged alone, and the planner. The benchmark's own books declare everything and
//! have no public folder, and its requests are whole.

use crate::monitor::Monitor;
use crate::requests::Parties;
use crate::seen::{Seen, ANSWER};
use crate::{alone, baseline, books, keeping, planning, scene};
use reference::random::Random;
use reference::{Buffers, Loaded, Tables};

/// Few requests, which the run that keeps judges one by one, and more.
const COUNTS: [usize; 5] = [1, 8, 60, 60, 100];

struct Scene {
    book: Vec<u8>,
    loaded: Loaded,
    first: Buffers,
    requests: Vec<u8>,
    room: usize,
}

fn scene(seed: u64) -> Scene {
    let mut random = Random::new(seed);
    let book = books::some_book(&mut random);
    let loaded = reference::load(&book);
    let first = some_buffers(&mut random, &loaded.tables);
    let count = random.pick(&COUNTS);
    let requests = Parties::of(&mut random, &loaded.tables).requests(&mut random, count);
    let room = if random.chance(5) {
        count - 1
    } else {
        count + 1
    };
    Scene {
        book,
        loaded,
        first,
        requests,
        room,
    }
}

/// Blank, or with another history, or with other levels, and now and then with
/// levels of another length.
fn some_buffers(random: &mut Random, tables: &Tables) -> Buffers {
    let mut buffers = Buffers::blank(tables);
    if random.chance(1) {
        buffers.history.fill_with(|| random.byte());
    } else if random.chance(50) {
        for _ in 0..random.below(300) {
            let place = random.below(buffers.history.len());
            buffers.history[place] = random.byte();
        }
    }
    if random.chance(50) {
        for byte in &mut buffers.levels {
            *byte ^= random.byte() & random.byte() & random.byte();
        }
    }
    if random.chance(5) {
        let length = random.pick(&[0, 127, 129]);
        buffers.levels.resize(length, 255);
    }
    buffers
}

/// What a run returns and leaves.
type Left = ((u8, usize, usize), Buffers, Vec<u8>);

fn expected(scene: &Scene) -> Left {
    let (mut buffers, mut answers) = (scene.first.clone(), vec![99; scene.room]);
    let mut returned = (scene.loaded.number, 0, 0);
    if scene.loaded.number == 0 {
        let ran = buffers.run(&scene.loaded.tables, &scene.requests, &mut answers);
        returned = (ran.number, ran.granted, ran.refused);
    }
    (returned, buffers, answers)
}

#[test]
fn the_runs_agree() {
    let mut seen = Seen::default();
    for seed in 0..2_000 {
        let scene = scene(seed);
        let expected = expected(&scene);
        for run in [baseline::run, keeping::run] {
            let (mut buffers, mut answers) = (scene.first.clone(), vec![99; scene.room]);
            let Buffers { history, levels } = &mut buffers;
            let returned = run(&scene.book, history, levels, &scene.requests, &mut answers);
            assert!((returned, buffers, answers) == expected, "seed {seed}");
        }
        let ((_, granted, refused), _, answers) = expected;
        for answer in &answers[..granted + refused] {
            seen.count(ANSWER, *answer);
        }
    }
    let numbers = seen.calls[ANSWER];
    println!("the plain runs answered each number so often: {numbers:?}");
    assert!([0, 13, 14, 15, 16, 17, 21]
        .iter()
        .all(|it| numbers[*it] >= 500));
}

#[test]
fn a_request_judged_alone_agrees() {
    for seed in 0..2_000 {
        let scene = scene(seed);
        let Buffers { history, levels } = &scene.first;
        let mut rest = &scene.requests[..];
        for _ in 0..8 {
            let number = alone::judge_alone(&scene.book, history, levels, rest);
            let expected = match scene.loaded.number {
                0 => scene.first.judge(&scene.loaded.tables, rest),
                refused => refused,
            };
            assert_eq!(number, expected, "seed {seed}");
            rest = rest.get(3..).unwrap_or(&[]);
        }
    }
}

/// The planner of plain Rust in the place of the proved one.
struct Planning;

impl Monitor for Planning {
    fn plan(
        &self,
        book: &[u8],
        (history, levels): (&mut [u8], &mut [u8]),
        jobs: &[u8],
        positions: &mut [u8],
    ) -> u8 {
        planning::plan(book, history, levels, jobs, positions)
    }
}

#[test]
fn the_plans_are_right() {
    let mut plans = 0;
    for seed in 1_000..1_100 {
        plans += scene::play_plans(&Planning, seed, &mut Seen::default())
            .unwrap_or_else(|found| panic!("{found}"));
    }
    assert!(plans >= 4_000);
}
