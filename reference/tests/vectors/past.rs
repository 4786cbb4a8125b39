//! Other readings of what lowers a level, and steps that alter: what they would
//! answer on the committed calls.

use crate::under;
use crate::walk::{committed, each_command, each_judged, fronts};
use reference::command::Command;
use reference::history::{set_of, History};
use reference::rules::{current_level, judge_request};
use reference::{standing, Request, State, Tables};
use std::collections::BTreeMap;
use std::ops::Range;

/// What a reading takes the past for.
type Reading = fn(&History) -> History;

fn without(past: &History, left_out: impl Fn(&Request) -> bool) -> History {
    let kept = past.iter().filter(|request| !left_out(request));
    kept.copied().collect()
}

/// Whether a read is left out, by its person, its stretch, which are the eight
/// folders of one byte, and its place in it.
fn without_reads(past: &History, left_out: impl Fn(u8, u8, u8) -> bool) -> History {
    without(past, |request| match *request {
        Request::Read { person, folder } => left_out(person, folder / 8, folder % 8),
        _ => false,
    })
}

/// Whether a person read a folder of a stretch, at one of these places.
fn has_read(past: &History, person: u8, stretch: u8, mut places: Range<u8>) -> bool {
    places.any(|place| {
        let folder = 8 * stretch + place;
        past.contains(&Request::Read { person, folder })
    })
}

/// Readings of the reads that look at too little, where a level is worked out
/// from the history.
const SKIPS: [&str; 3] = [
    "an empty stretch ends the walk",
    "one folder of a stretch is looked at",
    "the last stretch is left out",
];

/// Other readings of what lowers a level.
const READINGS: [(&str, Reading); 7] = [
    ("no step lowers", |past| {
        without(past, |request| matches!(request, Request::Step { .. }))
    }),
    ("step 0 does not lower", |past| {
        without(past, |request| {
            matches!(request, Request::Step { step: 0, .. })
        })
    }),
    ("writes lower too", |past| {
        let as_read = |request: &Request| match *request {
            Request::Write { person, folder } => Request::Read { person, folder },
            other => other,
        };
        past.iter().map(as_read).collect()
    }),
    ("the first level stays", |_| History::new()),
    (SKIPS[0], |past| {
        without_reads(past, |person, stretch, _| {
            (0..stretch).any(|before| !has_read(past, person, before, 0..8))
        })
    }),
    (SKIPS[1], |past| {
        without_reads(past, |person, stretch, place| {
            has_read(past, person, stretch, 0..place)
        })
    }),
    (SKIPS[2], |past| {
        without_reads(past, |_, stretch, _| stretch == 15)
    }),
];

/// The state with the levels that another past gives stored for some persons.
fn with_levels_of(past: &History, tables: &Tables, state: &State, persons: &[u8]) -> State {
    let mut other = state.clone();
    for person in persons {
        if tables.person_declared(*person) {
            other.levels[usize::from(*person)] = current_level(tables, past, *person);
        }
    }
    other
}

/// The persons whose levels low-water compares.
pub fn persons_of(request: &Request) -> Vec<u8> {
    match *request {
        Request::Start { person, other } => vec![person, other],
        _ => vec![request.person()],
    }
}

/// The number when levels are worked out from another past.
fn by_levels_of(past: &History, tables: &Tables, state: &State, request: &Request) -> u8 {
    let other = with_levels_of(past, tables, state, &persons_of(request));
    judge_request(tables, &other, request)
}

/// How often each reading answers otherwise: by the kind of the request, 0 for
/// a standing, and by the mask.
type Otherwise = BTreeMap<(&'static str, u8), [usize; 16]>;

/// Counts the readings by whose past something differs.
fn count(
    found: &mut Otherwise,
    (kind, mask): (u8, u8),
    history: &History,
    differs: impl Fn(&History) -> bool,
) {
    for (name, reading) in READINGS {
        let past = reading(history);
        if differs(&past) {
            found.entry((name, kind)).or_insert([0; 16])[usize::from(mask)] += 1;
        }
    }
}

/// Requests of these kinds that the readings which look at too little answer
/// otherwise.
fn expect_skips(found: &Otherwise, kinds: &[u8]) {
    for name in SKIPS {
        let counts = kinds.iter().flat_map(|kind| found[&(name, *kind)]);
        let otherwise: usize = counts.sum();
        println!("if {name}: kinds {kinds:?}: {otherwise} answers otherwise in all");
        assert!(otherwise >= 10);
    }
}

/// Steps that low-water refuses, by their number without it: also those that
/// the wall refuses before and those that a later rule would. And the requests
/// that each other reading would answer otherwise, where the levels stored are
/// those that the history gives.
#[test]
fn low_water_meets_steps() {
    let (mut refused, mut found) = (BTreeMap::new(), Otherwise::new());
    each_judged(&committed("stdin"), |tables, state, request| {
        let number = judge_request(tables, state, request);
        let kind = request.as_record()[0];
        if kind == 19 && [15, 21].contains(&under(tables.mask & 2, tables, state, request)) {
            let others = under(tables.mask & !2, tables, state, request);
            *refused.entry(others).or_insert(0) += 1;
        }
        let history = &state.history;
        if with_levels_of(history, tables, state, &persons_of(request)) != *state {
            return;
        }
        count(&mut found, (kind, tables.mask), history, |past| {
            by_levels_of(past, tables, state, request) != number
        });
    });
    println!("steps that low-water refuses, by their number without it: {refused:?}");
    for ((name, kind), masks) in &found {
        println!("if {name}: kind {kind} answered otherwise, by mask: {masks:?}");
    }
    assert!(refused[&0] >= 300 && refused[&14] >= 100);
    assert!(refused[&16] >= 50 && refused[&17] >= 300);
    for kind in [17, 18, 19] {
        let least = [("no step lowers", 150), ("step 0 does not lower", 30)];
        for (name, least) in least.into_iter().chain([("writes lower too", 15)]) {
            assert!(found[&(name, kind)].iter().sum::<usize>() >= least);
        }
        for mask in [2, 3, 6, 7, 10, 11, 14, 15] {
            assert!(found[&("no step lowers", kind)][mask] >= 1);
        }
    }
    expect_skips(&found, &[17, 18, 19]);
    let by_first_level = found[&("the first level stays", 19)];
    assert!(by_first_level.iter().sum::<usize>() >= 300);
}

/// Standings whose level each other reading would give otherwise, under every
/// mask, and those of persons with a step on an undeclared folder; where the
/// level stored is the one that the history gives.
#[test]
fn standings_meet_steps() {
    let (mut passed_over, mut found) = (0, Otherwise::new());
    each_command(&committed("stdin"), |player, command| {
        let ((history, levels), person) = match command {
            Command::Standing { lent, person } => (fronts(player, lent), *person),
            _ => return,
        };
        let tables = &player.tables;
        let seen = standing(tables, history, levels, person);
        if seen.number != 0 {
            return;
        }
        let history = set_of(history);
        if seen.level != current_level(tables, &history, person).number() {
            return;
        }
        let undeclared = |past: &Request| {
            let stepped = matches!(past, Request::Step { .. }) && past.person() == person;
            stepped && !past.parties_declared(tables)
        };
        passed_over += usize::from(seen.level != 0 && history.iter().any(undeclared));
        count(&mut found, (0, tables.mask), &history, |past| {
            current_level(tables, past, person).number() != seen.level
        });
    });
    println!("standings of persons with a step on an undeclared folder: {passed_over}");
    for ((name, _), masks) in &found {
        println!("if {name}: levels of standings otherwise, by mask: {masks:?}");
    }
    assert!(passed_over >= 100);
    expect_skips(&found, &[0]);
    for (name, least) in [("no step lowers", 5), ("step 0 does not lower", 1)] {
        assert!(found[&(name, 0)].iter().all(|count| *count >= least));
    }
}
