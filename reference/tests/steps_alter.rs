//! A step alters the folder (Point 2 of the later requests): it needs the
//! folder's level as a write does, and it lowers the person as a read does.
//!
//! In the marked book persons 0 and 1 are first at 0x2003 and 0x1001, folders 0
//! and 1 are at 0x2003, and folder 2 is at 0x1001.

mod common;
#[path = "common/drawn.rs"]
mod drawn;

use common::{marked, with_mask, NO_RUN};
use drawn::{request_of, tables_with};
use reference::history::History;
use reference::marked::{STEP_ANSWERS, STEP_BOOK, STEP_REQUESTS};
use reference::random::Random;
use reference::{load, Buffers, Level, Ran, Request, Tables};

/// Puts records from a history and expects their numbers.
fn expect_puts(tables: &Tables, lent: &mut Buffers, puts: &[(&[u8], u8)]) {
    for (place, (record, number)) in puts.iter().enumerate() {
        assert_eq!(lent.put(tables, record), *number, "{place}: {record:?}");
    }
}

/// The history in which only these requests have a bit, with its levels.
fn lent_of(tables: &Tables, requests: impl IntoIterator<Item = Request>) -> Buffers {
    Buffers::of_set(tables, requests.into_iter().collect())
}

fn level(tables: &Tables, lent: &Buffers, person: u8) -> u16 {
    let found = lent.standing(tables, person);
    assert_eq!(found.number, 0);
    found.level
}

#[test]
fn the_worked_case() {
    let tables = load(&STEP_BOOK).tables;
    let blank = Buffers::blank(&tables);
    let (mut as_run, mut as_puts, mut answers) = (blank.clone(), blank, [99; 4]);
    let ran = as_run.run(&tables, &STEP_REQUESTS, &mut answers);
    assert_eq!((ran.granted, ran.refused), (2, 2));
    assert_eq!(answers, STEP_ANSWERS);
    let puts: [(&[u8], u8); 4] = [
        (&[19, 0, 5, 1], 0),
        (&[17, 0, 0], 15),
        (&[19, 0, 3, 2], 21),
        (&[19, 0, 0, 1], 0),
    ];
    expect_puts(&tables, &mut as_puts, &puts);
    assert_eq!(as_run, as_puts);
    assert_eq!(level(&tables, &as_run, 0), 0x1001);
}

#[test]
fn every_step_lowers_as_a_read_does() {
    let tables = with_mask(2);
    let steps = (0..16).map(|step| vec![19, 0, step, 2]);
    for lowering in steps.chain([vec![16, 0, 2]]) {
        let mut lent = Buffers::blank(&tables);
        let before: [(&[u8], u8); 4] = [
            (&[17, 0, 0], 0),
            (&[19, 0, 7, 0], 0),
            (&[18, 1, 0], 15),
            (&lowering, 0),
        ];
        expect_puts(&tables, &mut lent, &before);
        assert_eq!(level(&tables, &lent, 0), 0x1001);
        let after: [(&[u8], u8); 6] = [
            (&[17, 0, 0], 15),
            (&[19, 0, 7, 0], 15),
            (&[18, 1, 0], 0),
            (&[17, 0, 2], 0),
            (&[19, 0, 0, 2], 0),
            (&[16, 0, 0], 0),
        ];
        expect_puts(&tables, &mut lent, &after);
        assert_eq!(level(&tables, &lent, 0), 0x1001);
    }
}

#[test]
fn a_step_is_judged_by_the_current_level() {
    let tables = with_mask(2);
    let mut lent = Buffers::blank(&tables);
    // At the first level, whatever the step, and again.
    for step in [0, 1, 15, 15] {
        expect_puts(&tables, &mut lent, &[(&[19, 0, step, 0], 0)]);
        assert_eq!(level(&tables, &lent, 0), 0x2003);
    }
    expect_puts(&tables, &mut lent, &[(&[16, 0, 2], 0)]);
    let before = lent.clone();
    for step in 0..16 {
        expect_puts(&tables, &mut lent, &[(&[19, 0, step, 0], 15)]);
        expect_puts(&tables, &mut lent, &[(&[19, 1, step, 1], 15)]);
    }
    // A refused step is not recorded and lowers nobody.
    assert_eq!(lent, before);
    assert_eq!(level(&tables, &lent, 1), 0x1001);
}

#[test]
fn a_step_needs_the_compartments_too() {
    let tables = load(&STEP_BOOK).tables;
    // The rank of folder 2 is lower than that of the person.
    let puts: [(&[u8], u8); 2] = [(&[19, 0, 3, 2], 21), (&[17, 0, 2], 21)];
    expect_puts(&tables, &mut Buffers::blank(&tables), &puts);
}

#[test]
fn steps_lower_under_every_mask() {
    for mask in 0..16 {
        let tables = with_mask(mask);
        let mut lent = Buffers::blank(&tables);
        expect_puts(&tables, &mut lent, &[(&[19, 0, 0, 2], 0)]);
        assert_eq!(level(&tables, &lent, 0), 0x1001);
        let written = if mask & 2 == 0 { 0 } else { 15 };
        expect_puts(&tables, &mut lent, &[(&[17, 0, 0], written)]);
        for step in 0..16 {
            let stepped = Request::Step {
                person: 0,
                step,
                folder: 2,
            };
            assert_eq!(level(&tables, &lent_of(&tables, [stepped]), 0), 0x1001);
        }
    }
}

#[test]
fn writes_and_starts_do_not_lower() {
    for mask in 0..16 {
        let tables = with_mask(mask);
        let mut lent = Buffers::blank(&tables);
        let puts: [(&[u8], u8); 4] = [
            (&[17, 0, 2], 0),
            (&[18, 0, 1], 0),
            (&[17, 0, 0], 0),
            (&[19, 0, 0, 0], 0),
        ];
        expect_puts(&tables, &mut lent, &puts);
        assert_eq!(level(&tables, &lent, 0), 0x2003);
    }
}

#[test]
fn a_step_of_another_person_does_not_lower() {
    for mask in 0..16 {
        let tables = with_mask(mask);
        let mut lent = Buffers::blank(&tables);
        expect_puts(&tables, &mut lent, &[(&[19, 1, 0, 2], 0)]);
        assert_eq!(level(&tables, &lent, 0), 0x2003);
        expect_puts(&tables, &mut lent, &[(&[17, 0, 0], 0)]);
    }
}

#[test]
fn steps_of_undeclared_parties_lower_nothing() {
    let mut past = Vec::new();
    for step in 0..16 {
        // Folders 3 to 127 and persons 2 to 63 are undeclared.
        for (person, folder) in [(0, 3), (0, 127), (2, 2), (63, 2), (2, 3)] {
            past.push(Request::Step {
                person,
                step,
                folder,
            });
        }
    }
    for mask in 0..16 {
        let tables = with_mask(mask);
        let lent = lent_of(&tables, past.clone());
        let found = lent.standing(&tables, 0);
        assert_eq!((found.level, found.rights, found.firms), (0x2003, 0, 0));
        for record in [&[17, 0, 0][..], &[19, 0, 0, 0], &[18, 0, 1]] {
            assert_eq!(lent.judge(&tables, record), 0);
        }
    }
}

/// A step that every rule refuses, and one that all but the wall refuse: the
/// first rule in force gives the number.
#[test]
fn the_wall_before_the_level_and_this_before_the_others() {
    let rival_read = Request::Read {
        person: 1,
        folder: 1,
    };
    for mask in 0..16 {
        let tables = with_mask(mask);
        for (lent, rules) in [
            (
                lent_of(&tables, [rival_read]),
                &[(1, 14), (2, 15), (4, 16), (8, 17)][..],
            ),
            (Buffers::blank(&tables), &[(2, 15), (4, 16), (8, 17)]),
        ] {
            let first = rules.iter().find(|(bit, _)| mask & bit != 0);
            let number = first.map_or(0, |(_, number)| *number);
            assert_eq!(lent.judge(&tables, &[19, 1, 5, 0]), number);
        }
    }
}

#[test]
fn a_run_takes_the_level_from_its_own_steps() {
    let requests = [17, 0, 0, 19, 0, 0, 2, 17, 0, 0, 19, 0, 1, 2, 19, 0, 0, 0];
    let (mut lent, mut answers) = (Buffers::blank(&marked()), [99; 6]);
    let ran = lent.run(&marked(), &requests, &mut answers);
    let expected = Ran {
        granted: 3,
        refused: 2,
        ..NO_RUN
    };
    assert_eq!(ran, expected);
    assert_eq!(answers, [0, 0, 15, 0, 15, 99]);
}

/// Four persons and eight folders of many levels.
fn some_tables(random: &mut Random, mask: u8) -> Tables {
    let mut parties = Vec::new();
    let some_byte = |random: &mut Random| random.byte() | random.byte() | random.byte();
    for person in 0..4 {
        parties.extend([3, person, some_byte(random), some_byte(random)]);
    }
    for folder in 0..8 {
        let (firm, level) = (random.below(3) as u8, [random.byte(), random.byte()]);
        parties.extend([4, folder, firm, folder, level[0] & 15, level[1]]);
    }
    tables_with(random, mask, &parties)
}

/// A request of declared parties, or now and then of undeclared ones.
fn some_request(random: &mut Random) -> Request {
    let person = |random: &mut Random| random.below(5) as u8;
    request_of(random, person, |random| random.below(9) as u8)
}

/// Requests put from blank, granted or not, and foreign bits, with the levels
/// that they give.
fn some_history(random: &mut Random, tables: &Tables) -> Buffers {
    let mut lent = Buffers::blank(tables);
    for _ in 0..random.below(6) {
        lent.put(tables, &some_request(random).as_record());
    }
    let mut set = lent.state().history;
    set.extend((0..random.below(4)).map(|_| some_request(random)));
    lent_of(tables, set)
}

/// The history with a read in the place of each step.
fn with_reads(tables: &Tables, lent: &Buffers) -> Buffers {
    let past = lent.state().history.into_iter();
    let as_reads: History = past
        .map(|past| match past {
            Request::Step { person, folder, .. } => Request::Read { person, folder },
            _ => past,
        })
        .collect();
    lent_of(tables, as_reads)
}

/// Point 2 in other words: a step is judged as a write, and levels are those
/// of a history in which each step was a read.
#[test]
fn low_water_in_other_words() {
    let mut random = Random::new(21);
    let (mut refused, mut lowered) = (0, 0);
    for _ in 0..500 {
        let tables = some_tables(&mut random, 2);
        let lent = some_history(&mut random, &tables);
        let read = with_reads(&tables, &lent);
        for person in 0..4 {
            assert_eq!(level(&tables, &lent, person), level(&tables, &read, person));
            let first = tables.persons[usize::from(person)].level;
            lowered += usize::from(Level::from_number(level(&tables, &lent, person)) != first);
        }
        for _ in 0..10 {
            let request = some_request(&mut random);
            let as_write = match request {
                Request::Step { person, folder, .. } => Request::Write { person, folder },
                _ => request,
            };
            let number = lent.judge(&tables, &request.as_record());
            assert_eq!(number, read.judge(&tables, &as_write.as_record()));
            refused += usize::from([15, 21].contains(&number) && request != as_write);
        }
    }
    assert!(refused > 300 && lowered > 300, "{refused} {lowered}");
}

/// Where low-water is not in force, no level changes a number.
#[test]
fn levels_change_low_water_alone() {
    let mut random = Random::new(22);
    for turn in 0..400 {
        let tables = some_tables(&mut random, [0, 1, 4, 5, 8, 9, 12, 13][turn % 8]);
        let lent = some_history(&mut random, &tables);
        let mut lowest = tables.clone();
        for person in &mut lowest.persons {
            person.level = Level::lowest();
        }
        for folder in &mut lowest.folders[..4] {
            folder.level = Level::lowest();
        }
        for _ in 0..10 {
            let record = some_request(&mut random).as_record();
            let number = lent.judge(&tables, &record);
            assert_eq!(number, lent.judge(&lowest, &record));
            assert!(![15, 21].contains(&number));
        }
    }
}
