//! Public folders (Point 1 of the later requests): only the wall passes them
//! over, as the folder asked for and as folders already opened.

mod common;

use common::{with_mask, NO_RUN};
use reference::fields::set_field;
use reference::random::Random;
use reference::{load, Buffers, Ran, Request, Tables};

/// Three firms, the first two rivals, each with a public folder and one that
/// is not: folders 0, 2, 4 and 1, 3, 5. Two persons.
const LOBBIES: [u8; 65] = [
    1, 1, // the wall
    2, 0, 9, 2, 1, 9, 2, 2, 4, // firms
    3, 0, 255, 255, 3, 1, 255, 255, // persons
    4, 0, 0, 0, 0, 0, 4, 1, 0, 1, 0, 0, // folders of firm 0
    4, 2, 1, 0, 0, 0, 4, 3, 1, 1, 0, 0, // of firm 1
    4, 4, 2, 0, 0, 0, 4, 5, 2, 1, 0, 0, // of firm 2
    7, 0, 7, 2, 7, 4, // marks
    6, 0, 1, // a pair
    0,
];

fn lobbies(mask: u8) -> Tables {
    let loaded = load(&LOBBIES);
    assert_eq!((loaded.number, loaded.offset), (0, 64));
    let mut tables = loaded.tables;
    tables.mask = mask;
    tables
}

/// A read, a write and a step of a folder.
fn accesses(person: u8, folder: u8) -> [Vec<u8>; 3] {
    [
        vec![16, person, folder],
        vec![17, person, folder],
        vec![19, person, 7, folder],
    ]
}

/// Puts records from a history and expects their numbers.
fn expect_puts(tables: &Tables, lent: &mut Buffers, puts: &[(&[u8], u8)]) {
    for (place, (record, number)) in puts.iter().enumerate() {
        assert_eq!(lent.put(tables, record), *number, "{place}: {record:?}");
    }
}

#[test]
fn the_wall_passes_every_access_of_a_public_folder() {
    let tables = lobbies(1);
    let mut lent = Buffers::blank(&tables);
    expect_puts(&tables, &mut lent, &[(&[16, 0, 1], 0)]);
    for folder in [0, 2, 4] {
        for record in accesses(0, folder) {
            assert_eq!(lent.judge(&tables, &record), 0);
        }
    }
    for record in accesses(0, 3) {
        assert_eq!(lent.judge(&tables, &record), 14);
    }
}

#[test]
fn public_folders_of_rivals_do_not_forbid() {
    let tables = lobbies(1);
    // Each access alone, and all of them.
    let both: Vec<Vec<u8>> = [accesses(0, 0), accesses(0, 2)].concat();
    for opened in both.chunks(1).chain([&both[..]]) {
        let mut lent = Buffers::blank(&tables);
        for record in opened {
            assert_eq!(lent.put(&tables, record), 0);
        }
        assert_eq!(lent.judge(&tables, &[16, 0, 1]), 0);
        assert_eq!(lent.judge(&tables, &[17, 0, 3]), 0);
        assert_eq!(lent.put(&tables, &[19, 0, 7, 3]), 0);
        assert_eq!(lent.judge(&tables, &[16, 0, 1]), 14);
    }
}

#[test]
fn a_public_folder_of_the_same_firm_does_not_admit() {
    let tables = lobbies(1);
    for first in accesses(0, 1) {
        for lobby in accesses(0, 2) {
            let mut lent = Buffers::blank(&tables);
            expect_puts(&tables, &mut lent, &[(&first, 0), (&lobby, 0)]);
            for record in accesses(0, 3) {
                assert_eq!(lent.put(&tables, &record), 14);
            }
            // The firm opened first stays open, and so does another class.
            for record in [accesses(0, 1), accesses(0, 5)].concat() {
                assert_eq!(lent.put(&tables, &record), 0);
            }
            // The other person is free.
            assert_eq!(lent.put(&tables, &[16, 1, 3]), 0);
            assert_eq!(lent.put(&tables, &[16, 1, 1]), 14);
        }
    }
}

/// P9 with marks: a history in which one person has two rival firms, one of
/// them by its public folder alone.
#[test]
fn histories_that_no_list_leaves() {
    let tables = lobbies(1);
    let mut lent = Buffers::blank(&tables);
    // Read 0 0 and read 0 3.
    lent.history[0] = 0b1001;
    assert_eq!(lent.judge(&tables, &[16, 0, 1]), 14);
    assert_eq!(lent.judge(&tables, &[16, 0, 3]), 0);
    // Both by folders that are not public.
    lent.history[0] = 0b1010;
    assert_eq!(lent.judge(&tables, &[16, 0, 1]), 0);
    assert_eq!(lent.judge(&tables, &[16, 0, 3]), 0);
    // The bits of public folders are no bits of undeclared ones.
    lent.history[0] = 0b0101;
    assert_eq!(lent.standing(&tables, 0).firms, 2);
}

#[test]
fn standing_counts_the_firms_of_public_folders() {
    let tables = lobbies(1);
    let mut lent = Buffers::blank(&tables);
    for (count, folder) in [0, 2, 4].into_iter().enumerate() {
        assert_eq!(lent.standing(&tables, 0).firms, count);
        assert_eq!(lent.put(&tables, &[16, 0, folder]), 0);
        assert_eq!(lent.put(&tables, &[19, 0, 3, folder]), 0);
    }
    let found = lent.standing(&tables, 0);
    // Read kind 0, and step 3.
    assert_eq!((found.number, found.level), (0, 0));
    assert_eq!((found.rights, found.firms), (2, 3));
    // A firm opened by both of its folders is one firm.
    assert_eq!(lent.put(&tables, &[16, 0, 1]), 0);
    assert_eq!(lent.standing(&tables, 0).firms, 3);
}

/// The marked book's tables with folder 2, of the lower level, public.
fn marked_public(mask: u8) -> Tables {
    let mut tables = with_mask(mask);
    set_field(&mut tables, 12, 2, 1);
    tables
}

#[test]
fn a_public_folder_lowers_the_level() {
    for mask in [2, 3] {
        let tables = marked_public(mask);
        let mut lent = Buffers::blank(&tables);
        expect_puts(
            &tables,
            &mut lent,
            &[(&[17, 0, 0], 0), (&[18, 1, 0], 15), (&[16, 0, 2], 0)],
        );
        assert_eq!(lent.standing(&tables, 0).level, 0x1001);
        expect_puts(
            &tables,
            &mut lent,
            &[(&[17, 0, 0], 15), (&[18, 1, 0], 0), (&[17, 0, 2], 0)],
        );
    }
    // A write to a public folder needs its level, too.
    let mut tables = marked_public(3);
    set_field(&mut tables, 12, 0, 1);
    expect_puts(&tables, &mut Buffers::blank(&tables), &[(&[17, 1, 0], 15)]);
}

#[test]
fn a_public_folder_uses_a_right() {
    // One role reads kinds 0 and 1, another writes them.
    for mask in [4, 5] {
        let mut tables = lobbies(mask);
        expect_puts(&tables, &mut Buffers::blank(&tables), &[(&[16, 0, 0], 16)]);
        for (role, rights) in [(0, 3), (1, 3 << 16)] {
            set_field(&mut tables, 9, role, 1);
            set_field(&mut tables, 10, role, rights);
        }
        let mut lent = Buffers::blank(&tables);
        expect_puts(
            &tables,
            &mut lent,
            &[
                (&[19, 0, 0, 0], 16),
                (&[16, 0, 0], 0),
                (&[17, 0, 1], 16),
                (&[17, 0, 0], 16),
                (&[16, 0, 1], 0),
                (&[17, 1, 2], 0),
                (&[16, 1, 5], 16),
            ],
        );
    }
}

#[test]
fn a_public_folder_takes_part_in_the_pipeline() {
    for mask in [8, 9] {
        let tables = lobbies(mask);
        let mut lent = Buffers::blank(&tables);
        expect_puts(
            &tables,
            &mut lent,
            &[
                (&[19, 0, 1, 2], 17),
                (&[19, 0, 0, 2], 0),
                (&[19, 1, 0, 2], 17),
                (&[19, 1, 1, 2], 0),
                (&[19, 0, 1, 2], 17),
                (&[19, 0, 2, 2], 17),
            ],
        );
    }
}

#[test]
fn a_mark_of_an_undeclared_folder_is_refused_with_11() {
    let mut tables = lobbies(15);
    set_field(&mut tables, 12, 6, 1);
    let mut lent = Buffers::filled(0xa5);
    let mut answers = [7; 4];
    assert_eq!(lent.judge(&tables, &[16, 0, 1]), 11);
    assert_eq!(lent.put(&tables, &[16, 0, 1]), 11);
    let ran = lent.run(&tables, &[16, 0, 1], &mut answers);
    assert_eq!(
        ran,
        Ran {
            number: 11,
            ..NO_RUN
        }
    );
    assert_eq!(lent.standing(&tables, 0).number, 11);
    assert_eq!(lent, Buffers::filled(0xa5));
    assert_eq!(answers, [7; 4]);
    // The folder declared, or the mark taken away.
    set_field(&mut tables, 5, 6, 1);
    assert_eq!(lent.standing(&tables, 0).number, 0);
    set_field(&mut tables, 5, 6, 0);
    set_field(&mut tables, 12, 6, 0);
    assert_eq!(lent.standing(&tables, 0).number, 0);
}

/// Five firms of two classes, ten folders of which some are public, and roles
/// of many rights.
fn some_tables(random: &mut Random, mask: u8) -> Tables {
    let mut book = vec![1, mask];
    for firm in 0..5 {
        book.extend([2, firm, random.below(2) as u8]);
    }
    for person in 0..3 {
        book.extend([3, person, 255, random.byte()]);
    }
    for folder in 0..10 {
        let (firm, kind) = (random.below(5) as u8, random.below(3) as u8);
        book.extend([4, folder, firm, kind, 255, random.byte()]);
        if random.chance(40) {
            book.extend([7, folder]);
        }
    }
    for role in 0..3 {
        let rights = random.number() | random.number() | random.number();
        book.extend([5, role]);
        book.extend(rights.to_le_bytes());
    }
    book.extend([6, 0, 1, 6, 1, 2, 0]);
    let loaded = load(&book);
    assert_eq!(loaded.number, 0);
    loaded.tables
}

fn some_request(random: &mut Random) -> Request {
    let (person, folder) = (random.below(3) as u8, random.below(10) as u8);
    match random.below(7) {
        0..=1 => Request::Read { person, folder },
        2..=3 => Request::Write { person, folder },
        4 => Request::Start {
            person,
            other: random.below(3) as u8,
        },
        _ => Request::Step {
            person,
            step: random.below(3) as u8,
            folder,
        },
    }
}

/// Requests put on the tables from blank, granted or not, and foreign bits,
/// with the levels that they give.
fn some_history(random: &mut Random, tables: &Tables) -> Buffers {
    let mut lent = Buffers::blank(tables);
    for _ in 0..random.below(12) {
        lent.put(tables, &some_request(random).as_record());
    }
    let mut set = lent.state().history;
    if random.chance(50) {
        set.extend((0..4).map(|_| some_request(random)));
    }
    Buffers::of_set(tables, set)
}

/// The history without every access of a public folder.
fn without_public(tables: &Tables, lent: &Buffers) -> Buffers {
    let mut set = lent.state().history;
    set.retain(|request| match request.folder_accessed() {
        Some(folder) => !tables.folder(folder).public,
        None => true,
    });
    Buffers::of_set(tables, set)
}

/// The wall in other words: it passes requests for public folders, and else
/// it is the wall without marks over a history without public folders.
#[test]
fn the_wall_in_other_words() {
    let mut random = Random::new(11);
    let mut refused = 0;
    for _ in 0..400 {
        let tables = some_tables(&mut random, 1);
        let lent = some_history(&mut random, &tables);
        let left = without_public(&tables, &lent);
        for _ in 0..10 {
            let request = some_request(&mut random);
            let record = request.as_record();
            let passes = match request.folder_accessed() {
                Some(folder) => tables.folder(folder).public,
                None => true,
            };
            let expected = match passes {
                true => 0,
                false => left.judge(&tables.without_marks(), &record),
            };
            assert_eq!(lent.judge(&tables, &record), expected);
            refused += usize::from(expected == 14);
        }
    }
    assert!(refused > 300, "{refused}");
}

/// Where the wall is not in force, or both walls pass, marks change nothing;
/// and they never change a standing.
#[test]
fn marks_change_the_wall_alone() {
    let mut random = Random::new(12);
    for turn in 0..600 {
        let tables = some_tables(&mut random, (turn % 16) as u8);
        let lent = some_history(&mut random, &tables);
        let unmarked = tables.without_marks();
        for _ in 0..5 {
            let record = some_request(&mut random).as_record();
            let numbers = [&tables, &unmarked].map(|either| lent.judge(either, &record));
            if !numbers.contains(&14) {
                assert_eq!(numbers[0], numbers[1]);
            } else {
                assert_eq!(turn % 2, 1);
            }
        }
        for person in 0..4 {
            let found = lent.standing(&tables, person);
            assert_eq!(found, lent.standing(&unmarked, person));
        }
    }
}

/// "A list granted throughout from blank under walls and roles alone still
/// passes in every order."
#[test]
fn granted_lists_pass_in_every_order() {
    let mut random = Random::new(13);
    let mut longest = 0;
    for turn in 0..200 {
        let tables = some_tables(&mut random, [1, 4, 5, 0][turn % 4]);
        let mut lent = Buffers::blank(&tables);
        let mut granted = Vec::new();
        for _ in 0..25 {
            let record = some_request(&mut random).as_record();
            if lent.put(&tables, &record) == 0 {
                granted.push(record);
            }
        }
        longest = longest.max(granted.len());
        for _ in 0..5 {
            random.shuffle(&mut granted);
            let mut reordered = Buffers::blank(&tables);
            for record in &granted {
                assert_eq!(reordered.put(&tables, record), 0);
            }
            assert_eq!(reordered, lent);
        }
    }
    assert!(longest >= 20, "{longest}");
}
