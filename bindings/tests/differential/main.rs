//! Plays random calls on the proved monitor and on the independent reference,
//! and compares every result and every lent byte.

#[path = "../../benches/benchmark/alone.rs"]
mod alone;
#[path = "../../benches/benchmark/baseline.rs"]
mod baseline;
mod books;
mod clearance;
#[path = "../../benches/benchmark/gathering.rs"]
mod gathering;
#[path = "../../benches/benchmark/keeping.rs"]
mod keeping;
#[path = "../../benches/benchmark/kinds.rs"]
mod kinds;
mod lent;
mod mistakes;
mod monitor;
mod mutant;
mod plain;
#[path = "../../benches/benchmark/planning.rs"]
mod planning;
mod requests;
mod scene;
mod seen;
#[path = "../../benches/benchmark/shared.rs"]
mod shared;
#[path = "../../benches/benchmark/tables.rs"]
mod tables;

use mistakes::{Mistake, Mistaken};
use monitor::Proved;
use mutant::{Mutant, Mutation};
use reference::plan::fault;
use reference::{marked, Buffers};
use seen::{Plans, Seen, ANSWER, NUMBERS};

/// The calls that the main test compares at least.
const CALLS: usize = 100_000;

/// The plans that the test of plans looks at at least.
const PLANS: usize = 20_000;

#[test]
fn answers_agree() {
    let mut calls = 0;
    let mut seed = 0;
    let mut seen = Seen::default();
    while calls < CALLS {
        calls += scene::play(&Proved, seed, &mut seen).unwrap_or_else(|found| panic!("{found}"));
        seed += 1;
    }
    let numbers = seen.own_numbers();
    println!("{calls} calls in {seed} scenes agree; each number was given so often: {numbers:?}");
    let unseen: Vec<usize> = (0..NUMBERS)
        .filter(|number| *number != 11 && numbers[*number] == 0)
        .collect();
    assert!(unseen.is_empty(), "no call gave {unseen:?}");
    let [other, given] = seen.levels;
    println!("{other} scenes ended on levels that the history does not give, {given} on its own");
    assert!(3 * other >= given && 3 * given >= other);
    expect_both_refusals(&seen);
}

/// Low-water refuses with 15 about as often as with 21, by each call that judges.
fn expect_both_refusals(seen: &Seen) {
    for call in ["judge", "put", ANSWER] {
        let numbers = seen.calls[call];
        let [rank, compartment] = [numbers[15], numbers[21]];
        println!("{call}: 15 was given {rank} times, and 21 {compartment} times");
        assert!(rank >= 500 && compartment >= 500);
        assert!(2 * rank >= compartment && 2 * compartment >= rank);
    }
}

/// Every plan is right by the reference: an order is granted throughout, and 23
/// comes after a list from blank only where there is no order.
#[test]
fn plans_are_right() {
    let (mut plans, mut seed) = (0, 0);
    let mut seen = Seen::default();
    while plans < PLANS {
        plans += scene::play_plans(&Proved, seed, &mut seen).unwrap_or_else(|it| panic!("{it}"));
        seed += 1;
    }
    let numbers = seen.calls["plan"];
    println!(
        "{plans} plans in {seed} scenes are right; each number was given so often: {numbers:?}"
    );
    let Plans {
        after_lists,
        elsewhere,
        with_step,
        not_their_own,
        long,
    } = seen.plans;
    println!(
        "without and with an order: {after_lists:?} after lists, {elsewhere:?} elsewhere; {with_step} \
         with a step; {not_their_own} with an order but not their own, {long} with more than six jobs"
    );
    let (with_order, asked) = (numbers[0], numbers[0] + numbers[23]);
    assert!(3 * with_order >= plans && 2 * with_step >= asked && 5 * not_their_own >= with_order);
    assert!(long >= 300 && numbers[18] >= 500 && numbers[22] >= 500);
    assert!(after_lists
        .iter()
        .chain(&elsewhere)
        .all(|count| *count >= 1_000));
}

/// A monitor that plans wrongly in one place only is found.
#[test]
fn each_mistake_of_plans_is_found() {
    for mistake in Mistake::all() {
        let mistaken = Mistaken { mistake };
        let found = (0..1_000)
            .find_map(|seed| scene::play_plans(&mistaken, seed, &mut Seen::default()).err());
        match found {
            Some(text) => println!("{mistake:?}: {text}"),
            None => panic!("{mistake:?} was not found"),
        }
    }
}

/// Runs of two thousand requests each.
#[test]
fn long_runs_agree() {
    for seed in 0..10 {
        scene::play_long(&Proved, seed, 2_000).unwrap_or_else(|found| panic!("{found}"));
    }
}

/// A monitor that differs in one place only is found.
#[test]
fn each_mutation_is_found() {
    for mutation in Mutation::ALL {
        let mutant = Mutant { mutation };
        let found =
            (0..1_000).find_map(|seed| scene::play(&mutant, seed, &mut Seen::default()).err());
        match found {
            Some(text) => println!("{mutation:?}: {text}"),
            None => panic!("{mutation:?} was not found"),
        }
    }
}

/// Runs requests from blank: the number, what is left, and the answers.
fn run_from_blank<const N: usize>(
    book: &[u8],
    requests: &[u8],
) -> (kweldabe::Ran, Buffers, [u8; N]) {
    let (mut lent, mut answers) = (Buffers::filled(255), [99; N]);
    let Buffers { history, levels } = &mut lent;
    assert_eq!(kweldabe::blank(book, history, levels), 0);
    let ran = kweldabe::run(book, history, levels, requests, &mut answers);
    (ran.expect("short requests"), lent, answers)
}

#[test]
fn the_marked_day_is_as_printed() {
    let (ran, _, answers) = run_from_blank::<12>(&marked::BOOK, &marked::REQUESTS);
    let expected = kweldabe::Ran {
        number: 0,
        granted: 5,
        refused: 5,
    };
    assert_eq!(ran, expected);
    assert_eq!(answers[..10], marked::ANSWERS);
    assert_eq!(answers[10..], [99, 99]);
}

#[test]
fn a_public_folder_of_a_rival_is_passed() {
    for (requests, expected) in marked::PUBLIC_LISTS {
        let (ran, _, answers) = run_from_blank(&marked::PUBLIC_BOOK, &requests);
        assert_eq!((ran.number, answers), (0, expected));
    }
    let loaded = kweldabe::load(&[1, 1, 7, 0, 0]);
    assert_eq!((loaded.number, loaded.offset), (19, 2));
}

#[test]
fn a_step_alters_the_folder() {
    let (book, requests) = (&marked::STEP_BOOK, &marked::STEP_REQUESTS);
    let (ran, lent, answers) = run_from_blank(book, requests);
    assert_eq!((ran.number, answers), (0, marked::STEP_ANSWERS));
    let found = kweldabe::standing(book, &lent.history, &lent.levels, 0);
    assert_eq!(found.level, 0x1001);
    assert_eq!(lent.levels[..2], [0x01, 0x10]);
}

#[test]
fn rank_or_compartment() {
    let (book, requests) = (&marked::CLEARANCE_BOOK, &marked::CLEARANCE_REQUESTS);
    let (ran, lent, answers) = run_from_blank(book, requests);
    assert_eq!((ran.number, answers), (0, marked::CLEARANCE_ANSWERS));
    for (record, number) in requests.chunks(3).zip(marked::CLEARANCE_ANSWERS) {
        let (mut history, mut levels) = (lent.history.clone(), lent.levels.clone());
        assert_eq!(kweldabe::judge(book, &history, &levels, record), number);
        let given = kweldabe::put(book, &mut history, &mut levels, record);
        assert_eq!(given, number);
        assert!(lent == Buffers { history, levels });
    }
}

/// The jobs of the worked case as structs: their only order, and zeros with a
/// refusal.
#[test]
fn jobs_in_their_only_order() {
    let book = &marked::ORDER_BOOK;
    let blank = Buffers::blank(&reference::load(book).tables);
    let jobs = marked::ORDER_JOBS.chunks(4).map(|it| kweldabe::Job {
        action: it[0],
        person: it[1],
        target: it[2],
        step: it[3],
    });
    let jobs: Vec<kweldabe::Job> = jobs.collect();
    let plan = |jobs: &[kweldabe::Job]| kweldabe::plan(book, &blank.history, &blank.levels, jobs);
    let found = plan(&jobs);
    assert_eq!(
        (found.number, &found.positions[..4]),
        (0, &marked::ORDER[..])
    );
    assert_eq!(found.positions[4..], [0; 60]);
    let start = kweldabe::Job {
        action: 18,
        ..jobs[0]
    };
    for (jobs, number) in [(&jobs[..1], 23), (&[jobs[2], start], 22), (&[], 0)] {
        let positions = [0; 64];
        assert_eq!(plan(jobs), kweldabe::Plan { number, positions });
    }
}

/// On a history that no list from blank leaves, 23 or a right order is answered
/// where comparing pairs finds no order though there is one.
#[test]
fn an_order_that_pairs_miss() {
    let (book, jobs) = (&marked::PAIRS_BOOK, &marked::PAIRS_JOBS);
    let Buffers { history, levels } = marked::pairs_buffers();
    let tables = reference::load(book).tables;
    for plan in [kweldabe::plan_bytes, planning::plan] {
        let mut positions = [0; 64];
        let number = plan(book, &history, &levels, jobs, &mut positions);
        println!("{number} and {:?}", &positions[..2]);
        let claimed = reference::Plan { number, positions };
        let found = fault(&tables, (&history, &levels), jobs, false, &claimed);
        assert_eq!(found, None);
    }
}

#[test]
fn the_stored_level_counts() {
    let book = &marked::STEP_BOOK;
    let (_, mut lent, _) = run_from_blank::<4>(book, &marked::STEP_REQUESTS);
    lent.levels[..2].copy_from_slice(&[0x03, 0x20]);
    let Buffers { history, levels } = &mut lent;
    assert_eq!(kweldabe::standing(book, history, levels, 0).level, 0x2003);
    assert_eq!(kweldabe::put(book, history, levels, &[17, 0, 0]), 0);
    assert_eq!(kweldabe::blank(book, history, &mut levels[1..]), 20);
    assert_eq!(
        kweldabe::blank(book, &mut history[1..], &mut levels[1..]),
        10
    );
    assert_eq!(kweldabe::blank(&[1, 16, 0], history, levels), 4);
    assert_eq!(levels[..2], [0x03, 0x20]);
}

#[test]
fn too_many_request_bytes_are_not_passed_on() {
    let requests = vec![0; kweldabe::MOST_REQUEST_BYTES + 1];
    let mut lent = Buffers::filled(0);
    let Buffers { history, levels } = &mut lent;
    let mut answers = [99];
    let ran = kweldabe::run(&marked::BOOK, history, levels, &requests, &mut answers);
    assert_eq!(ran, Err(kweldabe::TooLong));
    let fewer = &requests[1..];
    let ran = kweldabe::run(&marked::BOOK, history, levels, fewer, &mut answers);
    assert_eq!(ran.map(|ran| (ran.number, ran.refused)), Ok((0, 1)));
    assert_eq!(answers, [12]);
}
