//! An order for the day's jobs (Point 6 of the later requests): the worked case,
//! the refusals and their order, which plans are right, the search held to all
//! orders, and the planner that compares pairs held to the search.

#[path = "common/drawn.rs"]
mod drawn;

use drawn::{request_of, tables_with};
use reference::marked::{
    pairs_buffers, ORDER, ORDER_BOOK, ORDER_JOBS, PAIRS_BOOK, PAIRS_JOBS, PAIRS_ORDER,
};
use reference::orders::{all_orders, granted_in_order, own_order_is_granted, some_order};
use reference::plan::{fault, MOST_JOBS};
use reference::planners::Planner;
use reference::random::Random;
use reference::rules::judge_request;
use reference::{given, load, plan, Buffers, Job, Level, Plan, Request, State, Tables};

fn order_tables() -> Tables {
    load(&ORDER_BOOK).tables
}

fn number(tables: &Tables, buffers: &Buffers, jobs: &[u8]) -> u8 {
    plan(tables, &buffers.history, &buffers.levels, jobs).number
}

/// What is wrong with a plan.
fn wrong(tables: &Tables, buffers: &Buffers, jobs: &[u8], left: bool, it: &Plan) -> &'static str {
    let lent = (&buffers.history[..], &buffers.levels[..]);
    fault(tables, lent, jobs, left, it).unwrap_or("nothing")
}

fn plan_with(number: u8, positions: &[u8]) -> Plan {
    let mut plan = Plan::refused(number);
    plan.positions[..positions.len()].copy_from_slice(positions);
    plan
}

#[test]
fn the_worked_case_has_one_order() {
    let tables = order_tables();
    let blank = Buffers::blank(&tables);
    let found = plan(&tables, &blank.history, &blank.levels, &ORDER_JOBS);
    assert_eq!(found, plan_with(0, &ORDER));
    for order in all_orders(4) {
        let claimed = Plan::of_order(&order);
        let expected = match claimed == found {
            true => "nothing",
            false => "the order has a refusal",
        };
        assert_eq!(
            wrong(&tables, &blank, &ORDER_JOBS, true, &claimed),
            expected
        );
    }
    let mut after = blank;
    for place in ORDER {
        let bytes = &ORDER_JOBS[4 * usize::from(place)..][..4];
        let record = Job::of_bytes(bytes).unwrap().record();
        assert_eq!(after.put(&tables, &record), 0);
    }
    assert_eq!(number(&tables, &after, &ORDER_JOBS), 23);
    assert_eq!(number(&tables, &after, &[16, 0, 0, 0, 16, 0, 1, 255]), 0);
}

#[test]
fn each_cause_of_22() {
    let tables = order_tables();
    let blank = Buffers::blank(&tables);
    let read = [16, 0, 1, 99];
    assert_eq!(number(&tables, &blank, &[]), 0);
    assert_eq!(number(&tables, &blank, &read), 0);
    let causes: [&[u8]; 12] = [
        &[18, 0, 0, 0],
        &[18, 0, 99, 0],
        &[15, 0, 0, 0],
        &[20, 0, 0, 0],
        &[0, 0, 0, 0],
        &[16, 1, 0, 0],
        &[17, 0, 2, 0],
        &[19, 0, 255, 0],
        &[19, 0, 0, 16],
        &[16],
        &[17, 0],
        &[19, 0, 0],
    ];
    for cause in causes {
        assert_eq!(number(&tables, &blank, cause), 22, "{cause:?}");
        assert_eq!(number(&tables, &blank, &[&read, cause].concat()), 22);
        // 22 stands before 23: step 1 has no order.
        let without_order = [&[19, 0, 1, 1], cause].concat();
        assert_eq!(number(&tables, &blank, &without_order), 22);
    }
    assert_eq!(number(&tables, &blank, &[19, 0, 1, 1]), 23);
    for (count, expected) in [(64, 0), (65, 22), (200, 22)] {
        assert_eq!(number(&tables, &blank, &read.repeat(count)), expected);
    }
    let cut = [&read.repeat(64)[..], &[16]].concat();
    assert_eq!(number(&tables, &blank, &cut), 22);
}

#[test]
fn ten_and_twenty_and_eleven_stand_first() {
    let mut tables = order_tables();
    let blank = Buffers::blank(&tables);
    for jobs in [&[][..], &[18, 0, 0, 0], &[19, 0, 1, 1], &[16, 0, 1]] {
        tables.mask = 10;
        for history in [18_943, 18_945, 0] {
            for levels in [128, 127] {
                let history = vec![0; history];
                let found = plan(&tables, &history, &vec![0; levels], jobs);
                assert_eq!(found, Plan::refused(10));
            }
        }
        tables.mask = 16;
        for levels in [127, 129, 0] {
            let found = plan(&tables, &blank.history, &vec![0; levels], jobs);
            assert_eq!(found, Plan::refused(20));
        }
        assert_eq!(number(&tables, &blank, jobs), 11);
    }
}

const NOT_EACH: &str = "a place of the list is not in the order";
const LEFT: &str = "positions are left with a refusal";
const EARLY: &str = "10, 20, 11 or 22 is due";
const LATE: &str = "0 or 23 is due";

/// Lists, the number and the positions of a wrong plan, and what is wrong with it
/// from blank.
const WRONG_PLANS: [(&[u8], u8, &[u8], &str); 12] = [
    (&ORDER_JOBS, 0, &[3, 2, 1, 1], NOT_EACH),
    (&ORDER_JOBS, 0, &[4, 3, 2, 1], NOT_EACH),
    (
        &ORDER_JOBS,
        0,
        &[3, 2, 1, 0, 4],
        "a position past the list is not 0",
    ),
    (&ORDER_JOBS, 23, &ORDER, LEFT),
    (&ORDER_JOBS, 22, &[0, 1], LEFT),
    (&ORDER_JOBS, 23, &[], "there is an order"),
    (&ORDER_JOBS, 22, &[], LATE),
    (&ORDER_JOBS, 17, &[], LATE),
    (&[], 23, &[], "the empty list has an order"),
    (&[18, 0, 0, 0], 23, &[], EARLY),
    (&[18, 0, 0, 0], 0, &[0], EARLY),
    (&[19, 0, 1, 1], 0, &[0], "the order has a refusal"),
];

#[test]
fn wrong_plans_are_refused() {
    let tables = order_tables();
    let blank = Buffers::blank(&tables);
    for (jobs, number, positions, expected) in WRONG_PLANS {
        let claimed = plan_with(number, positions);
        let found = wrong(&tables, &blank, jobs, true, &claimed);
        assert_eq!(found, expected, "{claimed:?}");
    }
    let sixty_four = [16, 0, 1, 0].repeat(MOST_JOBS);
    let backwards: Vec<usize> = (0..MOST_JOBS).rev().collect();
    for (claimed, expected) in [
        (Plan::refused(22), LATE),
        (Plan::refused(0), NOT_EACH),
        (Plan::of_order(&backwards), "nothing"),
    ] {
        assert_eq!(
            wrong(&tables, &blank, &sixty_four, true, &claimed),
            expected
        );
    }
}

/// Where no list from blank leaves the buffers, 23 is free, but not for no jobs,
/// and a wrong order stays wrong.
#[test]
fn elsewhere_23_is_free() {
    let tables = order_tables();
    let mut buffers = Buffers::blank(&tables);
    buffers.levels[1] = 48;
    let found = plan(&tables, &buffers.history, &buffers.levels, &ORDER_JOBS);
    assert_eq!(found.number, 0);
    for (jobs, claimed, expected) in [
        (&ORDER_JOBS[..], found, "nothing"),
        (&ORDER_JOBS, Plan::refused(23), "nothing"),
        (
            &ORDER_JOBS,
            plan_with(0, &[0, 1, 2, 3]),
            "the order has a refusal",
        ),
        (&[], Plan::refused(23), "the empty list has an order"),
        (&[], Plan::refused(0), "nothing"),
    ] {
        assert_eq!(wrong(&tables, &buffers, jobs, false, &claimed), expected);
    }
}

/// Where no list from blank leaves the buffers, 23 may come though an order exists:
/// the search finds the order, and comparing pairs finds none. Both are right
/// there; after a list 23 would be wrong.
#[test]
fn comparing_pairs_may_miss_an_order_elsewhere() {
    let tables = load(&PAIRS_BOOK).tables;
    let buffers = pairs_buffers();
    let Buffers { history, levels } = &buffers;
    let found = plan(&tables, history, levels, &PAIRS_JOBS);
    assert_eq!(found, plan_with(0, &PAIRS_ORDER));
    let missed = Planner::Right.plan(&tables, history, levels, &PAIRS_JOBS);
    assert_eq!(missed, Plan::refused(23));
    for (claimed, left, expected) in [
        (&found, false, "nothing"),
        (&missed, false, "nothing"),
        (&found, true, "nothing"),
        (&missed, true, "there is an order"),
        (&plan_with(0, &[0, 1]), false, "the order has a refusal"),
    ] {
        let said = wrong(&tables, &buffers, &PAIRS_JOBS, left, claimed);
        assert_eq!(said, expected);
    }
}

/// Three persons and four folders of levels near each other; steps 0 to 4 enable
/// others upwards.
fn some_tables(random: &mut Random) -> Tables {
    let levels = [[255, 255], [255, 239], [254, 255], [254, 239]];
    let mut parties = Vec::new();
    for person in 0..3 {
        parties.extend([3, person]);
        parties.extend(levels[random.below(2)]);
    }
    for folder in 0..4 {
        parties.extend([4, folder, random.below(3) as u8, random.below(16) as u8]);
        parties.extend(random.pick(&levels));
    }
    let mask = random.pick(&[2, 8, 10, 10, 10, 11, 14, 15]);
    let mut tables = tables_with(random, mask, &parties);
    for step in 2..5 {
        for before in 0..step {
            let reached = before == 0 || (0..before).any(|it| tables.enables[it][before]);
            tables.enables[before][step] |= reached && random.chance(40);
        }
    }
    assert!(given(&tables));
    tables
}

/// No start, and half of the writes are left out: half of the jobs are steps.
fn some_job(random: &mut Random) -> Request {
    loop {
        let request = request_of(random, |it| it.below(2) as u8, |it| it.below(4) as u8);
        match request {
            Request::Start { .. } => {}
            Request::Write { .. } if random.chance(50) => {}
            _ => return request,
        }
    }
}

/// What a list of so many requests from blank leaves.
fn state_after(random: &mut Random, tables: &Tables, count: usize) -> State {
    let mut state = State::blank(tables);
    for _ in 0..count {
        let request = some_job(random);
        if judge_request(tables, &state, &request) == 0 {
            state.record(tables, &request);
        }
    }
    state
}

/// Adds requests and changes levels, so that no list leaves the state.
fn disturb(random: &mut Random, state: &mut State) {
    for _ in 0..random.below(4) {
        state.history.insert(some_job(random));
    }
    for person in 0..3 {
        let level = random.pick(&[0xffff, 0xefff, 0xfffe, 0xeffe]);
        state.levels[person] = Level::from_number(level);
    }
}

/// Mostly jobs that are granted one after another, in an order that is not, if
/// some turns find one; else as they come.
fn some_requests(random: &mut Random, tables: &Tables, state: &State) -> Vec<Request> {
    let (mut after, mut requests) = (state.clone(), Vec::new());
    let (count, any) = (random.between(0, 6), random.chance(30));
    for _ in 0..60 {
        let request = some_job(random);
        let granted = judge_request(tables, &after, &request) == 0;
        if requests.len() < count && (granted || any) {
            after.record(tables, &request);
            requests.push(request);
        }
    }
    for _ in 0..10 {
        random.shuffle(&mut requests);
        if !own_order_is_granted(tables, state, &requests) {
            break;
        }
    }
    requests
}

/// The search finds an order exactly where one of all orders is granted, after
/// lists from blank and elsewhere.
#[test]
fn the_search_finds_what_all_orders_have() {
    let mut random = Random::new(6);
    let (mut with, mut without, mut otherwise) = (0, 0, 0);
    let mut lengths = [0; 7];
    for round in 0..3_000 {
        let tables = some_tables(&mut random);
        let count = random.below(5);
        let mut state = state_after(&mut random, &tables, count);
        if round % 2 == 1 {
            disturb(&mut random, &mut state);
        }
        let requests = some_requests(&mut random, &tables, &state);
        lengths[requests.len()] += 1;
        let granted =
            |order: &[usize]| granted_in_order(&tables, &state, &requests, order) == order.len();
        let orders = all_orders(requests.len());
        let has_order = orders.iter().any(|order| granted(order));
        match some_order(&tables, &state, &requests) {
            Some(order) => {
                assert!(orders.contains(&order) && granted(&order));
                let own = own_order_is_granted(&tables, &state, &requests);
                (with, otherwise) = (with + 1, otherwise + usize::from(!own));
            }
            None => without += usize::from(!has_order),
        }
        assert_eq!(some_order(&tables, &state, &requests).is_some(), has_order);
    }
    println!("{with} lists with an order, {otherwise} of these not their own; {without} without");
    println!("lists of 0 to 6 jobs: {lengths:?}");
    assert!(with >= 1_000 && otherwise >= 250 && without >= 500);
    assert!(lengths.iter().all(|count| *count >= 200));
}

/// After every list from blank the planner that compares pairs finds an order
/// where there is one. Elsewhere it may not, but what it hands back is right.
#[test]
fn comparing_pairs_is_enough_after_a_list() {
    let mut random = Random::new(60);
    let (mut after_lists, mut elsewhere) = ([0; 2], [0; 2]);
    for round in 0..12_000 {
        let tables = some_tables(&mut random);
        let count = random.below(5);
        let mut state = state_after(&mut random, &tables, count);
        let left = round % 2 == 0;
        if !left {
            disturb(&mut random, &mut state);
        }
        let requests = some_requests(&mut random, &tables, &state);
        let jobs = requests
            .iter()
            .flat_map(|it| Job::of_request(it, 99).as_bytes());
        let jobs: Vec<u8> = jobs.collect();
        let mut buffers = Buffers::filled(0);
        state.write(&mut buffers.history, &mut buffers.levels);
        let claimed = Planner::Right.plan(&tables, &buffers.history, &buffers.levels, &jobs);
        assert_eq!(wrong(&tables, &buffers, &jobs, left, &claimed), "nothing");
        let counts = if left {
            &mut after_lists
        } else {
            &mut elsewhere
        };
        counts[usize::from(claimed.number == 0)] += 1;
    }
    println!("without and with an order after lists {after_lists:?}, elsewhere {elsewhere:?}");
    assert!(after_lists
        .iter()
        .chain(&elsewhere)
        .all(|count| *count >= 1_000));
}
