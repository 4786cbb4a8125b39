//! Rank or compartment (Point 5): wrong readings of the two numbers of low-water,
//! each told apart by the committed calls, and how often each call gives them.

use crate::held::{expect_told_apart, Least};
use crate::monitor::Reading::{self, *};
use crate::under;
use crate::walk::{committed, each_command, each_judged_in};
use reference::command::Command;
use reference::rules::judge_request;
use reference::{Level, Request, State, Tables};
use std::collections::BTreeMap;

/// Whether the rank that is held is too low, and whether a compartment is
/// missing, from the level that is asked for and the one that is held.
fn wanting(asked: u16, held: u16) -> (bool, bool) {
    (asked >> 12 > held >> 12, asked & !held & 0xfff != 0)
}

/// The number of low-water, 0 where it grants, by a reading.
pub fn number(reading: Reading, request: &Request, levels: [Level; 2]) -> u8 {
    let [asked, held] = levels.map(|level| level.number());
    let right = match wanting(asked, held) {
        (false, false) => return 0,
        (true, _) => 15,
        (false, true) => 21,
    };
    let missing = wanting(asked, held).1;
    match (reading, request) {
        (MissingBeforeRank, _) if missing => 21,
        (NumbersExchanged, _) => 36 - right,
        (AlwaysFifteen, _) => 15,
        (AlwaysTwentyOne, _) => 21,
        (MissingGrants, _) if right == 21 => 0,
        (StartNumberTurnedRound, Request::Start { .. }) => match wanting(held, asked) {
            (true, _) => 15,
            (false, _) => 21,
        },
        (EqualRankTooLow, _) if asked >> 12 == held >> 12 => 15,
        (WriteKeepsFifteen, Request::Write { .. }) => 15,
        (StartKeepsFifteen, Request::Start { .. }) => 15,
        (StepKeepsFifteen, Request::Step { .. }) => 15,
        _ => right,
    }
}

const LEAST: [Least; 12] = [
    (
        MissingBeforeRank,
        &[("judge", [300, 0]), ("put", [200, 0]), ("run", [130, 0])],
    ),
    (
        NumbersExchanged,
        &[("judge", [700, 0]), ("put", [500, 0]), ("run", [190, 0])],
    ),
    (
        AlwaysFifteen,
        &[("judge", [300, 0]), ("put", [250, 0]), ("run", [130, 0])],
    ),
    (
        AlwaysTwentyOne,
        &[("judge", [400, 0]), ("put", [290, 0]), ("run", [150, 0])],
    ),
    (
        MissingGrants,
        &[
            ("judge", [300, 0]),
            ("put", [250, 12]),
            ("run", [130, 7]),
            ("standing", [50, 0]),
        ],
    ),
    (
        StartNumberTurnedRound,
        &[("judge", [100, 0]), ("put", [60, 0]), ("run", [60, 0])],
    ),
    (
        EqualRankTooLow,
        &[("judge", [200, 0]), ("put", [200, 0]), ("run", [120, 0])],
    ),
    (
        WriteKeepsFifteen,
        &[("judge", [90, 0]), ("put", [90, 0]), ("run", [75, 0])],
    ),
    (
        StartKeepsFifteen,
        &[("judge", [80, 0]), ("put", [45, 0]), ("run", [55, 0])],
    ),
    (
        StepKeepsFifteen,
        &[("judge", [110, 0]), ("put", [120, 0]), ("run", [95, 0])],
    ),
    (
        TwentyOneBeforeWall,
        &[("judge", [25, 0]), ("put", [15, 0]), ("run", [20, 0])],
    ),
    (
        TwentyOneAfterOthers,
        &[("judge", [85, 0]), ("put", [85, 0]), ("run", [70, 0])],
    ),
];

#[test]
fn each_wrong_number_is_told_apart() {
    let found = expect_told_apart(&LEAST);
    // What is granted is right in all but one of them.
    for ((reading, call), [_, levels]) in found {
        assert!(
            reading == MissingGrants || levels == 0,
            "{reading:?} {call}"
        );
    }
}

/// What low-water compares for a request: the level asked for and the one held.
fn compared(tables: &Tables, state: &State, request: &Request) -> Option<[u16; 2]> {
    let held = |person: u8| state.level(person).number();
    match *request {
        Request::Read { .. } => None,
        Request::Write { person, folder } | Request::Step { person, folder, .. } => {
            Some([tables.folder(folder).level.number(), held(person)])
        }
        Request::Start { person, other } => Some([held(other), held(person)]),
    }
}

/// By call, kind and whether other rules are in force besides low-water: how
/// often the rank alone is too low, how often a compartment is missing besides,
/// and how often the rank suffices and a compartment is missing, with the rank
/// higher and with the same.
type Refused = BTreeMap<(&'static str, u8, bool), [usize; 4]>;

fn count_refused(
    refused: &mut Refused,
    call: &'static str,
    (tables, state, request): (&Tables, &State, &Request),
) {
    let number = judge_request(tables, state, request);
    if ![15, 21].contains(&number) {
        return;
    }
    let [asked, held] = compared(tables, state, request).unwrap();
    let place = match wanting(asked, held) {
        (true, false) => 0,
        (true, true) => 1,
        (false, true) if asked >> 12 < held >> 12 => 2,
        (false, true) => 3,
        (false, false) => panic!("refused without a cause"),
    };
    assert_eq!(number, [15, 15, 21, 21][place]);
    let key = (call, request.as_record()[0], tables.mask != 2);
    refused.entry(key).or_default()[place] += 1;
}

#[test]
fn each_call_gives_both_numbers() {
    let mut refused = Refused::new();
    each_command(&committed("stdin"), |player, command| {
        let call = match command {
            Command::Judge { .. } => "judge",
            Command::Put { .. } => "put",
            _ => "run",
        };
        each_judged_in(player, command, &mut |tables, state, request| {
            count_refused(&mut refused, call, (tables, state, request));
        });
    });
    for ((call, kind, others), counts) in &refused {
        println!(
            "{call}, kind {kind}, {}: rank alone, rank and compartment, compartment under a \
             higher rank and under the same: {counts:?}",
            if *others {
                "other rules too"
            } else {
                "low-water alone"
            }
        );
    }
    assert_eq!(refused.len(), 18);
    for (key, [alone, both, higher, same]) in &refused {
        assert!(
            [alone, both, higher, same].iter().all(|it| **it >= 4),
            "{key:?}"
        );
        let (fifteen, twenty_one) = (alone + both, higher + same);
        assert!(
            3 * fifteen >= twenty_one && 3 * twenty_one >= fifteen,
            "{key:?}"
        );
    }
}

/// Where a compartment is missing: the number without low-water, so that 21 is
/// seen after the wall and before the other rules.
#[test]
fn the_place_of_both_numbers() {
    let mut others: BTreeMap<(u8, u8), usize> = BTreeMap::new();
    each_command(&committed("stdin"), |player, command| {
        each_judged_in(player, command, &mut |tables, state, request| {
            let alone = under(tables.mask & 2, tables, state, request);
            if [15, 21].contains(&alone) {
                let without = under(tables.mask & !2, tables, state, request);
                *others.entry((alone, without)).or_default() += 1;
                let number = judge_request(tables, state, request);
                assert_eq!(number, if without == 14 { 14 } else { alone });
            }
        });
    });
    println!("low-water's number alone and the number without it: {others:?}");
    for number in [15, 21] {
        for without in [0, 14, 16, 17] {
            assert!(others[&(number, without)] >= 50, "{number} {without}");
        }
    }
}
