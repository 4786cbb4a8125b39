//! The committed files of calls are those of the fixed seed. They hold every
//! published number of every call and every kind of record, and requests on
//! which a wall that counts public folders, a low-water rule that passes steps,
//! a level that skips reads or another reading of the levels held ready or of the
//! two numbers of low-water would answer otherwise; and plans on which a planner
//! that reads Point 6 otherwise would.

#[path = "vectors/clearance.rs"]
mod clearance;
#[path = "vectors/held.rs"]
mod held;
#[path = "vectors/monitor.rs"]
mod monitor;
#[path = "vectors/past.rs"]
mod past;
#[path = "vectors/planned.rs"]
mod planned;
#[path = "vectors/walk.rs"]
mod walk;

use reference::generator::{calls, SEED};
use reference::play::play;
use reference::rules::judge_request;
use reference::{load, Request, State, Tables};
use std::collections::{BTreeMap, BTreeSet};
use walk::{books, committed, each_judged};

#[test]
fn committed_files_equal_what_is_written() {
    let (committed_calls, committed_text) = (committed("stdin"), committed("stdout"));
    assert!(calls(SEED) == committed_calls, "the calls differ");
    let played = play(&committed_calls);
    assert!(played.text.as_bytes() == committed_text, "the text differs");
    // The program that plays the calls holds so many bytes of them.
    assert!(committed_calls.len() <= 458_752);
    assert!(committed_text.len() < 550_000);
}

/// The numbers that each call gives, all of them and no other.
#[test]
fn every_number_of_every_call() {
    let requests = (12..=17).chain([21]);
    let judged: Vec<u8> = [0].into_iter().chain(10..=17).chain([20, 21]).collect();
    let calls: [(&str, Vec<u8>); 8] = [
        ("load", (0..=9).chain([19]).collect()),
        ("blank", vec![0, 10, 11, 20]),
        ("judge", judged.clone()),
        ("put", judged),
        ("run", vec![0, 10, 11, 18, 20]),
        ("answer in a run", [0].into_iter().chain(requests).collect()),
        ("standing", vec![0, 10, 11, 13, 20]),
        ("plan", vec![0, 10, 11, 20, 22, 23]),
    ];
    let tally = play(&committed("stdin")).tally;
    for (call, numbers) in &calls {
        let given: Vec<u8> = tally
            .keys()
            .filter(|(name, _)| name == call)
            .map(|(_, number)| *number)
            .collect();
        assert_eq!(given, *numbers, "{call}");
    }
    let published: BTreeSet<u8> = calls.into_iter().flat_map(|(_, numbers)| numbers).collect();
    assert_eq!(published, (0..=23).collect());
}

/// How many records of each kind a loaded book has.
fn count_kinds(book: &[u8], end: usize, counts: &mut BTreeMap<u8, usize>) {
    let mut offset = 0;
    while offset <= end {
        let kind = book[offset];
        *counts.entry(kind).or_insert(0) += 1;
        offset += 1 + [0, 1, 2, 3, 5, 9, 2, 1][usize::from(kind)];
    }
}

/// Each kind is loaded, and each number of loading refuses each kind that it
/// can.
#[test]
fn every_kind_of_record_is_loaded_and_refused() {
    let mut loaded = BTreeMap::new();
    let mut refused: BTreeMap<u8, BTreeSet<u8>> = BTreeMap::new();
    for book in books(&committed("stdin")) {
        let found = load(&book);
        if found.number == 0 {
            count_kinds(&book, found.offset, &mut loaded);
        } else if let Some(kind) = book.get(found.offset) {
            refused.entry(found.number).or_default().insert(*kind);
        }
    }
    println!("records of each kind in books that load: {loaded:?}");
    assert_eq!(
        loaded.keys().copied().collect::<Vec<u8>>(),
        (0..=7).collect::<Vec<u8>>()
    );
    assert!(loaded.values().all(|count| *count >= 200));
    let unknown = refused.remove(&2).unwrap();
    assert!(unknown.contains(&8) && unknown.contains(&255) && !unknown.contains(&7));
    let expected: [(u8, Vec<u8>); 9] = [
        (1, (1..=7).collect()),
        (3, (0..=7).collect()),
        (4, (1..=7).collect()),
        (5, (2..=7).collect()),
        (6, vec![4]),
        (7, vec![6]),
        (8, vec![0]),
        (9, vec![0]),
        (19, vec![7]),
    ];
    for (number, kinds) in expected {
        let found: Vec<u8> = refused[&number].iter().copied().collect();
        assert_eq!(found, kinds, "number {number}");
    }
}

/// The number with another mask of rules in force.
fn under(mask: u8, tables: &Tables, state: &State, request: &Request) -> u8 {
    let mut tables = tables.clone();
    tables.mask = mask;
    judge_request(&tables, state, request)
}

/// The answer of the wall alone.
fn wall_refuses(tables: &Tables, state: &State, request: &Request) -> bool {
    under(1, tables, state, request) == 14
}

/// Judged requests for public folders, and those on which the wall would
/// answer otherwise if there were no marks: a request for a public folder, a
/// public folder of a rival in the past, and one of the same firm.
#[test]
fn the_wall_meets_public_folders() {
    let (mut judged, mut for_public, mut under_wall) = (0, 0, 0);
    let (mut passed, mut rival_past, mut same_firm_past) = (0, 0, 0);
    each_judged(&committed("stdin"), |tables, state, request| {
        judged += 1;
        let folder = match request.folder_accessed() {
            Some(folder) if request.parties_declared(tables) => folder,
            _ => return,
        };
        let public = tables.folder(folder).public;
        for_public += usize::from(public);
        if tables.mask % 2 == 0 || !request.step_in_range() {
            return;
        }
        under_wall += usize::from(public);
        let refused = wall_refuses(tables, state, request);
        let unmarked = wall_refuses(&tables.without_marks(), state, request);
        match (public, unmarked, refused) {
            (true, true, false) => passed += 1,
            (false, true, false) => rival_past += 1,
            (false, false, true) => same_firm_past += 1,
            _ => {}
        }
        assert!(!(public && refused));
    });
    println!(
        "{judged} requests judged, {for_public} for a public folder, {under_wall} of these under \
         the wall; without marks the wall would refuse {passed} of these, refuse {rival_past} \
         others for a public folder of a rival, and pass {same_firm_past} for one of the same firm"
    );
    assert!(for_public >= 2_000 && under_wall >= 1_000);
    assert!(passed >= 200 && rival_past >= 200 && same_firm_past >= 50);
}
