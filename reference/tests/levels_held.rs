//! Levels held ready (Point 4 of the later requests), sentence by sentence.
//!
//! In the marked book persons 0 and 1 are first at 0x2003 and 0x1001, folders 0
//! and 1 are at 0x2003, and folder 2 is at 0x1001. The other persons are
//! undeclared.

mod common;

use common::{marked, with_mask, NO_RUN};
use reference::fields::set_field;
use reference::levels::{levels_by_history, write_levels};
use reference::marked::REQUESTS;
use reference::random::Random;
use reference::{blank, judge, load, put, run, standing, Buffers, Ran, Request, Tables};

/// Two bytes for each person, the low byte first.
fn store(lent: &mut Buffers, person: u8, level: u16) {
    let at = 2 * usize::from(person);
    lent.levels[at] = (level & 255) as u8;
    lent.levels[at + 1] = (level >> 8) as u8;
}

fn stored(lent: &Buffers, person: u8) -> u16 {
    let at = 2 * usize::from(person);
    u16::from(lent.levels[at]) | u16::from(lent.levels[at + 1]) << 8
}

/// Puts a record and expects its number and the stored levels of persons 0 and
/// 1 after it; all other bytes of the levels stay.
fn expect_put(tables: &Tables, lent: &mut Buffers, record: &[u8], number: u8, levels: [u16; 2]) {
    let mut expected = lent.clone();
    let name = format!("mask {}, {record:?}", tables.mask);
    assert_eq!(lent.judge(tables, record), number, "{name}");
    assert_eq!(*lent, expected, "{name}");
    assert_eq!(lent.put(tables, record), number, "{name}");
    store(&mut expected, 0, levels[0]);
    store(&mut expected, 1, levels[1]);
    assert_eq!(lent.levels, expected.levels, "{name}");
    if number != 0 {
        assert_eq!(lent.history, expected.history, "{name}");
    }
}

/// "A second lent buffer of 128 bytes holds each person's current level, 2
/// bytes each."
#[test]
fn each_entry_is_read_at_its_place() {
    let mut book = vec![1, 2, 2, 0, 0];
    for person in 0..64 {
        book.extend([3, person, 255, 255]);
    }
    book.push(0);
    let tables = load(&book).tables;
    let mut lent = Buffers::blank(&tables);
    assert_eq!(lent.levels, [255; 128]);
    for person in 0..64 {
        store(&mut lent, person, 0x0100 + 257 * u16::from(person));
    }
    for person in 0..64 {
        let level = 0x0100 + 257 * u16::from(person);
        assert_eq!(lent.standing(&tables, person).level, level);
        assert_eq!(lent.levels[2 * usize::from(person)], person);
        assert_eq!(lent.levels[2 * usize::from(person) + 1], person + 1);
    }
}

/// "Blanking now takes the tables and sets it to the first levels (zero for the
/// undeclared)."
#[test]
fn blank_sets_the_first_levels() {
    for value in [0, 0xa5, 255] {
        for mask in 0..16 {
            let mut lent = Buffers::filled(value);
            let tables = with_mask(mask);
            assert_eq!(blank(&tables, &mut lent.history, &mut lent.levels), 0);
            assert_eq!(lent.history, vec![0; 18_944]);
            assert_eq!(lent.levels[..4], [0x03, 0x20, 0x01, 0x10]);
            assert_eq!(lent.levels[4..], [0; 124]);
        }
    }
    let mut lent = Buffers::filled(255);
    let empty = Tables::empty_book();
    assert_eq!(blank(&empty, &mut lent.history, &mut lent.levels), 0);
    assert_eq!(lent, Buffers::filled(0));
}

/// "A granted read or step sets the person's entry to its meet with the
/// folder's level, under every mask."
#[test]
fn granted_reads_and_steps_lower_under_every_mask() {
    for mask in 0..16 {
        let tables = with_mask(mask);
        for record in [&[16, 0, 2][..], &[19, 0, 0, 2]] {
            let mut lent = Buffers::blank(&tables);
            expect_put(&tables, &mut lent, record, 0, [0x1001, 0x1001]);
            assert_eq!(lent.standing(&tables, 0).level, 0x1001);
        }
        // Writes and starts do not.
        let mut lent = Buffers::blank(&tables);
        for record in [[17, 0, 2], [18, 0, 1], [18, 0, 0]] {
            expect_put(&tables, &mut lent, &record, 0, [0x2003, 0x1001]);
        }
    }
}

/// The meet is that of the stored entry, not of the first level nor of the
/// level that the history gives.
#[test]
fn the_stored_entry_is_met() {
    for mask in 0..16 {
        let tables = with_mask(mask);
        // Folder 2 is at 0x1001.
        for (before, after) in [
            (0x0000, 0x0000),
            (0x0fff, 0x0001),
            (0x2002, 0x1000),
            (0xffff, 0x1001),
            (0xf001, 0x1001),
            (0x1ffe, 0x1000),
        ] {
            let mut lent = Buffers::blank(&tables);
            store(&mut lent, 0, before);
            expect_put(&tables, &mut lent, &[16, 0, 2], 0, [after, 0x1001]);
            // Once more, and the history has the read already.
            store(&mut lent, 0, before);
            expect_put(&tables, &mut lent, &[16, 0, 2], 0, [after, 0x1001]);
        }
    }
    // A step, from a level that is high enough for it.
    let tables = with_mask(2);
    for (before, after) in [(0x1001, 0x1001), (0x5005, 0x1001), (0xffff, 0x1001)] {
        let mut lent = Buffers::blank(&tables);
        store(&mut lent, 0, before);
        expect_put(&tables, &mut lent, &[19, 0, 4, 2], 0, [after, 0x1001]);
    }
}

/// Refused reads, steps and records write nothing.
#[test]
fn refused_requests_write_no_level() {
    let cases: [(u8, &[u8], &[u8], u8); 7] = [
        (1, &[16, 0, 0], &[16, 0, 1], 14),
        (1, &[16, 0, 0], &[19, 0, 7, 1], 14),
        (2, &[16, 0, 2], &[19, 0, 0, 0], 15),
        (4, &[16, 0, 2], &[19, 0, 9, 0], 16),
        (8, &[19, 0, 0, 0], &[19, 0, 2, 2], 17),
        (15, &[16, 0, 2], &[16, 0, 3], 13),
        (15, &[16, 0, 2], &[16, 0], 12),
    ];
    for (mask, first, record, number) in cases {
        let tables = with_mask(mask);
        let mut lent = Buffers::blank(&tables);
        assert_eq!(lent.put(&tables, first), 0);
        if mask != 2 {
            // A level that each folder would lower.
            store(&mut lent, 0, 0xffff);
        }
        let level = stored(&lent, 0);
        expect_put(&tables, &mut lent, record, number, [level, 0x1001]);
    }
    // A read that the roles refuse.
    let mut tables = with_mask(4);
    set_field(&mut tables, 10, 0, 0);
    let mut lent = Buffers::blank(&tables);
    expect_put(&tables, &mut lent, &[16, 0, 2], 16, [0x2003, 0x1001]);
}

/// "Put, judge, run and standing use the stored level, and on a buffer that
/// disagrees with the history the low-water rule is read with the levels in
/// the buffer."
#[test]
fn low_water_and_standing_use_the_stored_level() {
    let tables = with_mask(2);
    let both = |levels: [u16; 2]| {
        let mut lent = Buffers::blank(&tables);
        store(&mut lent, 0, levels[0]);
        store(&mut lent, 1, levels[1]);
        lent
    };
    for (record, levels, number) in [
        // Higher and lower than the first levels, which are 0x2003 and 0x1001.
        (&[17, 1, 0][..], [0, 0x2003], 0),
        (&[17, 1, 0], [0x2003, 0x2002], 21),
        (&[17, 0, 0], [0x1fff, 0x2003], 15),
        (&[17, 0, 2], [0x0fff, 0xffff], 15),
        (&[17, 0, 2], [0x1001, 0], 0),
        (&[19, 1, 3, 0], [0, 0xf003], 0),
        (&[19, 0, 3, 0], [0x2001, 0xffff], 21),
        (&[16, 0, 0], [0, 0], 0),
        // Either person's entry.
        (&[18, 1, 0], [0x1001, 0x1001], 0),
        (&[18, 1, 0], [0x2003, 0x2003], 0),
        (&[18, 1, 0], [0x2003, 0x2001], 21),
        (&[18, 0, 1], [0x2003, 0x2004], 21),
        (&[18, 0, 1], [0x0001, 0x1001], 15),
        (&[18, 0, 1], [0x1001, 0x0001], 0),
    ] {
        let mut lent = both(levels);
        let name = format!("{record:?} {levels:?}");
        assert_eq!(lent.judge(&tables, record), number, "{name}");
        let mut answers = [99];
        let ran = lent.clone().run(&tables, record, &mut answers);
        assert_eq!((ran.number, answers), (0, [number]), "{name}");
        for (person, level) in [0, 1].into_iter().zip(levels) {
            assert_eq!(lent.standing(&tables, person).level, level);
        }
        assert_eq!(lent.put(&tables, record), number, "{name}");
    }
}

/// The history alone moves no level, and the stored levels move nothing but
/// low-water and standing's level.
#[test]
fn the_history_gives_no_level() {
    let tables = with_mask(2);
    let mut lent = Buffers::blank(&tables);
    // Person 0 read folder 2, and stepped on it.
    lent.history[0] = 4;
    lent.history[2560 + 128 * 2] = 1;
    assert_eq!(lent.standing(&tables, 0).level, 0x2003);
    assert_eq!(lent.judge(&tables, &[17, 0, 0]), 0);
    assert_eq!(lent.judge(&tables, &[18, 1, 0]), 15);
    let found = lent.standing(&tables, 0);
    store(&mut lent, 0, 0x1001);
    assert_eq!(lent.judge(&tables, &[17, 0, 0]), 15);
    assert_eq!(lent.judge(&tables, &[18, 1, 0]), 0);
    let lowered = lent.standing(&tables, 0);
    assert_eq!((lowered.rights, lowered.firms), (found.rights, found.firms));
    assert_eq!((lowered.number, lowered.level), (0, 0x1001));
    // An undeclared person has no standing, whatever is stored.
    store(&mut lent, 2, 0xffff);
    let found = lent.standing(&tables, 2);
    assert_eq!((found.number, found.level), (13, 0));
}

/// The five calls with some bytes lent: their numbers. Each leaves every byte,
/// and counts and standing are zero.
fn numbers_of_calls(tables: &Tables, lent: &Buffers) -> [u8; 5] {
    let before = lent.clone();
    let (mut history, mut levels) = (before.history.clone(), before.levels.clone());
    let mut answers = [7; 10];
    let number = blank(tables, &mut history, &mut levels);
    let judged = judge(tables, &history, &levels, &[16, 0, 2]);
    let put = put(tables, &mut history, &mut levels, &[16, 0, 2]);
    let ran = run(tables, &mut history, &mut levels, &REQUESTS, &mut answers);
    let found = standing(tables, &history, &levels, 0);
    assert_eq!(Buffers { history, levels }, before);
    assert_eq!(answers, [7; 10]);
    assert_eq!((ran.granted, ran.refused), (0, 0));
    assert_eq!((found.level, found.rights, found.firms), (0, 0, 0));
    [number, judged, put, ran.number, found.number]
}

/// "20 when the level buffer isn't 128 bytes, checked after 10; blanking checks
/// 10, 20, 11. With 20 as a call's own, counts and standing are zero."
#[test]
fn the_checks_go_10_20_11() {
    let mut spoilt = marked();
    spoilt.mask = 16;
    for history in [18_944, 18_943, 18_945] {
        for levels in [128, 0, 127, 129, 256] {
            for tables in [&marked(), &spoilt] {
                let mut lent = Buffers::filled(0xa5);
                lent.history.resize(history, 0xa5);
                lent.levels.resize(levels, 0xa5);
                let number = match (history, levels, tables.mask) {
                    (18_944, 128, 15) => continue,
                    (18_944, 128, _) => 11,
                    (18_944, _, _) => 20,
                    _ => 10,
                };
                assert_eq!(numbers_of_calls(tables, &lent), [number; 5]);
            }
        }
    }
}

/// Too few answers: no level is lowered, by no request of the run.
#[test]
fn a_run_answered_18_leaves_the_levels() {
    let tables = with_mask(0);
    let mut lent = Buffers::blank(&tables);
    let before = lent.clone();
    let mut answers = [7];
    let ran = lent.run(&tables, &[16, 0, 2, 19, 0, 0, 2], &mut answers);
    let expected = Ran {
        number: 18,
        ..NO_RUN
    };
    assert_eq!((ran, &lent, answers), (expected, &before, [7]));
}

/// A run lowers as its puts do, one after another, and the record that ends it
/// leaves what stands.
#[test]
fn a_run_lowers_between_its_requests() {
    let tables = with_mask(2);
    let mut lent = Buffers::blank(&tables);
    let requests = [17, 0, 0, 16, 0, 2, 17, 0, 0, 19, 0, 0, 0, 20, 16, 1, 0];
    let mut answers = [99; 6];
    lent.run(&tables, &requests, &mut answers);
    assert_eq!(answers, [0, 0, 15, 15, 12, 99]);
    assert_eq!((stored(&lent, 0), stored(&lent, 1)), (0x1001, 0x1001));
}

fn some_request(random: &mut Random) -> Request {
    let (person, folder) = (random.below(4) as u8, random.below(6) as u8);
    let step = random.below(4) as u8;
    match random.below(5) {
        0 => Request::Read { person, folder },
        1 => Request::Write { person, folder },
        2 => Request::Start {
            person,
            other: random.below(4) as u8,
        },
        _ => Request::Step {
            person,
            step,
            folder,
        },
    }
}

/// Three persons and five folders of any levels that are high.
fn some_tables(random: &mut Random, mask: u8) -> Tables {
    let mut book = vec![1, mask, 2, 0, 0, 2, 1, 0];
    let mut level = || [random.byte() | random.byte(), random.byte() | 0xc0];
    for person in 0..3 {
        book.extend([3, person, 255, 255 - person]);
    }
    for folder in 0..5 {
        let [low, high] = level();
        book.extend([4, folder, folder % 2, folder, low, high]);
    }
    book.extend([
        5, 0, 255, 255, 255, 255, 255, 255, 7, 0, 6, 0, 1, 6, 1, 2, 0,
    ]);
    let loaded = load(&book);
    assert_eq!(loaded.number, 0);
    loaded.tables
}

/// "After every list from blank it equals the level that the history gives, so
/// a reader of the agreement sees the same numbers as before."
#[test]
fn from_blank_the_levels_are_those_of_the_history() {
    let mut random = Random::new(41);
    let (mut lowered, mut refused) = (0, 0);
    for turn in 0..320 {
        let tables = some_tables(&mut random, (turn % 16) as u8);
        let mut lent = Buffers::blank(&tables);
        for _ in 0..12 {
            let record = some_request(&mut random).as_record();
            let (set, before) = (lent.state().history, lent.levels.clone());
            let number = lent.judge(&tables, &record);
            assert_eq!(
                Buffers::of_set(&tables, set).judge(&tables, &record),
                number
            );
            assert_eq!(lent.put(&tables, &record), number);
            let mut expected = vec![0xa5; 128];
            let by_history = levels_by_history(&tables, &lent.state().history);
            write_levels(&by_history, &mut expected);
            assert_eq!(lent.levels, expected);
            lowered += usize::from(before != lent.levels);
            refused += usize::from([15, 21].contains(&number));
        }
    }
    assert!(lowered > 300 && refused > 100, "{lowered} {refused}");
}

/// On levels that nobody's history gives: the same request on other levels is
/// answered otherwise by low-water alone.
#[test]
fn stored_levels_change_low_water_alone() {
    let mut random = Random::new(42);
    let mut otherwise = 0;
    for turn in 0..320 {
        let tables = some_tables(&mut random, (turn % 16) as u8);
        let mut lent = Buffers::blank(&tables);
        for _ in 0..8 {
            lent.put(&tables, &some_request(&mut random).as_record());
        }
        let mut other = lent.clone();
        for person in 0..4 {
            store(&mut other, person, random.number() as u16);
        }
        let record = some_request(&mut random).as_record();
        let numbers = [&lent, &other].map(|either| either.judge(&tables, &record));
        if numbers[0] != numbers[1] {
            assert!(numbers.contains(&15) || numbers.contains(&21));
            assert_ne!(tables.mask & 2, 0);
            otherwise += 1;
        }
    }
    assert!(otherwise > 20, "{otherwise}");
}
