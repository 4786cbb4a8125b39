//! Wrong readings of the levels held ready (Point 4), each told apart from the
//! right one by what the committed calls print; and how often the levels stored
//! are those that the history gives.

use crate::monitor::Reading::*;
use crate::monitor::{Call, Monitor, Printed, Reading};
use crate::past::persons_of;
use crate::walk::{committed, each_command, each_judged, fronts};
use reference::command::{Command, Reader};
use reference::play::{Player, LEVEL_BUFFER};
use reference::rules::{current_level, judge_request};
use reference::{standing, State, Tables};
use std::collections::BTreeMap;

/// A monitor that plays along, and whether its levels differed when a digest of
/// them was printed last.
struct Along {
    monitor: Monitor,
    differed: bool,
}

/// By reading and call: how often the numbers are otherwise, and how often the
/// levels are which were not when they were printed last.
pub type Found = BTreeMap<(Reading, &'static str), [usize; 2]>;

impl Along {
    fn compare(&mut self, name: &'static str, ours: &Printed, right: &Printed, found: &mut Found) {
        let counts = found.entry((self.monitor.reading, name)).or_default();
        let same = ours.numbers == right.numbers && ours.answers == right.answers;
        counts[0] += usize::from(!same);
        if let Some(levels) = &ours.levels {
            let differs = Some(levels) != right.levels.as_ref();
            counts[1] += usize::from(differs && !self.differed);
            self.differed = differs;
        }
    }
}

/// The numbers of the line that the player printed last, without digests.
fn numbers_of(line: &str, count: usize) -> Vec<usize> {
    let words = line.split_whitespace().skip(1);
    words
        .take(count)
        .map(|word| word.parse().unwrap())
        .collect()
}

/// What a command that is none of the five calls leaves in the levels: a byte is
/// set; and as no reading is about plans, all go on from the levels after one.
fn go_on(monitor: &mut Monitor, command: &Command, player: &Player) {
    match *command {
        Command::LevelByte { at, value } => {
            monitor.levels[usize::from(at) % LEVEL_BUFFER] = value;
        }
        Command::Plan { .. } => monitor.levels.clone_from(&player.levels),
        _ => {}
    }
}

/// Plays the committed calls with the right monitor, which must print what the
/// player does, and with the others beside it.
fn play_along(readings: &[Reading]) -> Found {
    let new = |reading: Reading| Monitor {
        reading,
        levels: vec![0; LEVEL_BUFFER],
    };
    let along = |reading: &Reading| Along {
        monitor: new(*reading),
        differed: false,
    };
    let mut others: Vec<Along> = readings.iter().map(along).collect();
    let (mut right, mut player, mut found) = (new(Right), Player::new(), Found::new());
    let calls = committed("stdin");
    let mut reader = Reader { left: &calls };
    while let Some(command) = reader.command() {
        let call = Call::of(&player, &command);
        let printed = player.text.len();
        player.follow(&command);
        if let Some(call) = call {
            let expected = right.follow(&call);
            let line = numbers_of(&player.text[printed..], expected.numbers.len());
            assert_eq!(expected.numbers, line);
            for other in &mut others {
                let ours = other.monitor.follow(&call);
                other.compare(call.name, &ours, &expected, &mut found);
            }
        } else {
            let monitors = others.iter_mut().map(|other| &mut other.monitor);
            for monitor in monitors.chain([&mut right]) {
                go_on(monitor, &command, &player);
            }
        }
        assert_eq!(right.levels, player.levels);
    }
    found
}

/// What tells a reading apart: the call, and the least number of times that its
/// numbers are otherwise and that its levels are.
pub type Least = (Reading, &'static [(&'static str, [usize; 2])]);

/// The same of each of the five calls.
const FROM_EACH: &[(&str, [usize; 2])] = &[
    ("blank", [4, 0]),
    ("judge", [4, 0]),
    ("put", [4, 0]),
    ("run", [4, 0]),
    ("standing", [4, 0]),
];

const LEAST: [Least; 17] = [
    (WriteLowers, &[("put", [90, 50]), ("run", [40, 9])]),
    (StepDoesNotLower, &[("put", [40, 60]), ("run", [40, 6])]),
    (RefusedReadLowers, &[("put", [4, 7]), ("run", [6, 4])]),
    (RefusedStepLowers, &[("put", [50, 35]), ("run", [40, 10])]),
    (
        LowersInForceAlone,
        &[
            ("put", [0, 25]),
            ("run", [2, 2]),
            ("judge", [6, 0]),
            ("standing", [250, 0]),
        ],
    ),
    (
        MeetsFirstLevel,
        &[("put", [50, 60]), ("run", [90, 20]), ("standing", [400, 0])],
    ),
    (
        BlankLeavesUndeclared,
        &[("blank", [0, 2]), ("judge", [1, 0]), ("standing", [8, 0])],
    ),
    (GrantClearsUndeclared, &[("put", [0, 6]), ("run", [0, 8])]),
    (ElevenBeforeTwenty, FROM_EACH),
    (TwentyBeforeTen, FROM_EACH),
    (
        StartByOnePerson,
        &[("judge", [80, 0]), ("put", [60, 0]), ("run", [60, 0])],
    ),
    (
        StartTurnedRound,
        &[("judge", [140, 0]), ("put", [150, 0]), ("run", [110, 0])],
    ),
    (
        LowWaterByHistory,
        &[("judge", [70, 0]), ("put", [25, 0]), ("run", [45, 0])],
    ),
    (StandingByHistory, &[("standing", [250, 0])]),
    (
        HighByteFirst,
        &[("blank", [0, 10]), ("put", [35, 0]), ("standing", [200, 0])],
    ),
    (
        JudgeLowers,
        &[
            ("judge", [25, 0]),
            ("put", [15, 15]),
            ("standing", [100, 0]),
        ],
    ),
    (RefusedRunLowers, &[("run", [0, 7]), ("standing", [5, 0])]),
];

#[test]
fn each_wrong_reading_is_told_apart() {
    expect_told_apart(&LEAST);
}

/// Plays with these readings: each is told apart at least so often.
pub fn expect_told_apart(least: &[Least]) -> Found {
    let readings: Vec<Reading> = least.iter().map(|(reading, _)| *reading).collect();
    let found = play_along(&readings);
    for ((reading, call), counts) in &found {
        println!("{reading:?}, {call}: numbers and levels otherwise {counts:?}");
    }
    for (reading, least) in least {
        for (call, least) in *least {
            let counts = found[&(*reading, *call)];
            assert!(
                counts[0] >= least[0] && counts[1] >= least[1],
                "{reading:?}, {call}: {counts:?}"
            );
        }
    }
    found
}

/// How often the levels are those that the history gives, and how often not.
type Shares = BTreeMap<u8, [usize; 2]>;

fn agree(tables: &Tables, state: &State, persons: &[u8]) -> bool {
    let agrees =
        |person: &u8| current_level(tables, &state.history, *person) == *state.level(*person);
    persons.iter().all(agrees)
}

/// Where the level that the history gives, in the place of the stored one of
/// one person alone, would change the number: by kind and by the place of that
/// person in the request, 1 for the one whom a start names second.
#[test]
fn other_levels_change_answers() {
    let mut otherwise: BTreeMap<(u8, usize), usize> = BTreeMap::new();
    each_judged(&committed("stdin"), |tables, state, request| {
        let number = judge_request(tables, state, request);
        for (place, person) in persons_of(request).into_iter().enumerate() {
            if tables.mask & 2 != 0 && tables.person_declared(person) {
                let mut other = state.clone();
                other.levels[usize::from(person)] = current_level(tables, &state.history, person);
                let differs = judge_request(tables, &other, request) != number;
                let kind = request.as_record()[0];
                *otherwise.entry((kind, place)).or_default() += usize::from(differs);
            }
        }
    });
    println!("answers otherwise by the history's level of one person: {otherwise:?}");
    assert_eq!(otherwise[&(16, 0)], 0);
    for place in [(17, 0), (18, 0), (18, 1), (19, 0)] {
        assert!(otherwise[&place] >= 100, "{place:?}");
    }
}

/// Requests of each kind under low-water, and standings as kind 0: by whether
/// the levels of their persons are those that the history gives. And requests
/// judged while an undeclared person has a level.
#[test]
fn levels_disagree_as_often_as_not() {
    let (mut shares, mut undeclared) = (Shares::new(), 0);
    let calls = committed("stdin");
    each_judged(&calls, |tables, state, request| {
        let others = (0..64).filter(|person| !tables.person_declared(*person));
        undeclared += usize::from(others.into_iter().any(|it| state.level(it).number() != 0));
        let persons = persons_of(request);
        if tables.mask & 2 != 0 && request.parties_declared(tables) {
            let place = usize::from(!agree(tables, state, &persons));
            shares.entry(request.as_record()[0]).or_default()[place] += 1;
        }
    });
    each_command(&calls, |player, command| {
        if let Command::Standing { lent, person } = command {
            let (history, levels) = fronts(player, lent);
            if standing(&player.tables, history, levels, *person).number == 0 {
                let state = State::of(history, levels);
                let place = usize::from(!agree(&player.tables, &state, &[*person]));
                shares.entry(0).or_default()[place] += 1;
            }
        }
    });
    println!("levels that the history gives and others, by kind: {shares:?}");
    println!("requests judged while an undeclared person has a level: {undeclared}");
    for (kind, [same, other]) in &shares {
        assert!(
            4 * same >= same + other && 4 * other >= same + other,
            "{kind}"
        );
    }
    assert!(undeclared >= 1_000);
}
