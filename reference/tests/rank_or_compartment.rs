//! Rank or compartment (Point 5 of the later requests): low-water refuses with 15
//! where the rank is too low, and with 21 where the rank suffices and a
//! compartment is missing.

#[path = "common/drawn.rs"]
mod drawn;

use drawn::{request_of, tables_with};
use reference::answers::answers;
use reference::marked::{CLEARANCE_ANSWERS, CLEARANCE_BOOK, CLEARANCE_REQUESTS};
use reference::random::Random;
use reference::{load, Buffers, Ran, Request, Tables};
use std::collections::BTreeMap;

/// Judge, put and a run of the one request all give this number, and a refusal
/// leaves both buffers.
fn expect(tables: &Tables, lent: &Buffers, record: &[u8], number: u8) {
    let name = format!("{record:?} under mask {}", tables.mask);
    assert_eq!(lent.judge(tables, record), number, "{name}");
    let (mut as_put, mut as_run, mut answers) = (lent.clone(), lent.clone(), [99; 2]);
    assert_eq!(as_put.put(tables, record), number, "{name}");
    let granted = usize::from(number == 0);
    let ran = Ran {
        number: 0,
        granted,
        refused: 1 - granted,
    };
    assert_eq!(as_run.run(tables, record, &mut answers), ran, "{name}");
    assert_eq!(answers, [number, 99], "{name}");
    assert_eq!(as_put, as_run, "{name}");
    assert_eq!(as_put == *lent, number != 0, "{name}");
}

/// Persons 0 and 1, and folder 0 of a firm of its own, at any levels; folder 1,
/// of a rival, is at the lowest. One role has every right but that of step 15.
fn tables_of(mask: u8, persons: [u16; 2], folder: u16) -> Tables {
    let mut book = vec![1, mask, 2, 0, 0, 2, 1, 0];
    for (person, level) in [0, 1].into_iter().zip(persons) {
        book.extend([3, person]);
        book.extend(level.to_le_bytes());
    }
    book.extend([4, 0, 0, 0]);
    book.extend(folder.to_le_bytes());
    book.extend([4, 1, 1, 0, 0, 0, 6, 0, 1]);
    book.extend([5, 0, 255, 255, 255, 255, 255, 255, 255, 127, 0]);
    let loaded = load(&book);
    assert_eq!(loaded.number, 0);
    loaded.tables
}

fn store(lent: &mut Buffers, person: usize, level: u16) {
    lent.levels[2 * person..2 * person + 2].copy_from_slice(&level.to_le_bytes());
}

/// A level that is asked for, one that is held, and the number.
const COMPARED: [(u16, u16, u8); 20] = [
    // At most.
    (0x0000, 0x0000, 0),
    (0x2003, 0x2003, 0),
    (0x1001, 0x2003, 0),
    (0xffff, 0xffff, 0),
    (0x0fff, 0xffff, 0),
    // The rank alone is too low.
    (0x3001, 0x2001, 15),
    (0x3001, 0x2003, 15),
    (0xf000, 0xefff, 15),
    (0x1000, 0x0000, 15),
    // The rank is too low, and a compartment is missing besides.
    (0x3003, 0x2001, 15),
    (0x3002, 0x2001, 15),
    (0xffff, 0x0000, 15),
    (0x1001, 0x0ffe, 15),
    // The ranks are equal, and a compartment is missing.
    (0x2003, 0x2001, 21),
    (0x2002, 0x2001, 21),
    (0x0001, 0x0000, 21),
    (0xffff, 0xf7ff, 21),
    // The rank is higher, and a compartment is missing.
    (0x1003, 0x2001, 21),
    (0x1002, 0xfffd, 21),
    (0x0800, 0xf7ff, 21),
];

#[test]
fn the_worked_case_as_calls() {
    let tables = load(&CLEARANCE_BOOK).tables;
    let blank = Buffers::blank(&tables);
    for (record, number) in CLEARANCE_REQUESTS.chunks(3).zip(CLEARANCE_ANSWERS) {
        expect(&tables, &blank, record, number);
    }
    let (mut lent, mut numbers) = (blank.clone(), [99; 6]);
    let ran = lent.run(&tables, &CLEARANCE_REQUESTS, &mut numbers);
    assert_eq!((ran.number, ran.granted, ran.refused), (0, 0, 5));
    assert_eq!(numbers, [21, 15, 15, 21, 15, 99]);
    assert_eq!(lent, blank);
}

#[test]
fn the_worked_case_as_the_program() {
    let input = [&CLEARANCE_BOOK[..], &CLEARANCE_REQUESTS].concat();
    let text = "1 21\n2 15\n3 15\n4 21\n5 15\ngranted 0 refused 5\n";
    assert_eq!(answers(&input), text);
}

#[test]
fn a_write_and_a_step_compare_the_folder_with_the_person() {
    for (asked, held, number) in COMPARED {
        for other in [0, 0xffff] {
            let tables = tables_of(2, [held, other], asked);
            let lent = Buffers::blank(&tables);
            expect(&tables, &lent, &[17, 0, 0], number);
            for step in 0..16 {
                expect(&tables, &lent, &[19, 0, step, 0], number);
            }
            expect(&tables, &lent, &[16, 0, 0], 0);
        }
    }
}

/// The one who is started is asked for, and the one who starts holds.
#[test]
fn a_start_compares_the_started_with_the_starter() {
    for (asked, held, number) in COMPARED {
        for folder in [0, 0xffff] {
            let tables = tables_of(2, [held, asked], folder);
            expect(&tables, &Buffers::blank(&tables), &[18, 0, 1], number);
            let tables = tables_of(2, [asked, held], folder);
            expect(&tables, &Buffers::blank(&tables), &[18, 1, 0], number);
        }
    }
}

/// The levels are those stored, and not those that the history gives.
#[test]
fn the_stored_levels_are_compared() {
    for (asked, held, number) in COMPARED {
        let tables = tables_of(2, [!held, !asked], asked);
        let mut lent = Buffers::blank(&tables);
        store(&mut lent, 0, held);
        store(&mut lent, 1, asked);
        for record in [&[17, 0, 0][..], &[19, 0, 7, 0], &[18, 0, 1]] {
            expect(&tables, &lent, record, number);
        }
    }
}

/// A granted read and a granted step take compartments or a rank away.
#[test]
fn what_lowers_tells_the_number() {
    for (lowering, number) in [(0x2001, 21), (0x1003, 15), (0x1001, 15), (0x2003, 0)] {
        for first in [&[16, 0, 0][..], &[19, 0, 3, 0]] {
            let tables = tables_of(2, [0x2003, 0x2003], lowering);
            let mut lent = Buffers::blank(&tables);
            assert_eq!(lent.put(&tables, first), 0);
            expect(&tables, &lent, &[18, 0, 1], number);
        }
    }
}

/// 13, 14, then 15 or 21, then 16 and 17: a request that every check from its
/// place on refuses.
#[test]
fn the_place_of_21_is_that_of_15() {
    let rival_read = Request::Read {
        person: 0,
        folder: 1,
    };
    for mask in 0..16 {
        for (held, low_water) in [(0x2001, 21), (0x1003, 15), (0x1001, 15)] {
            let tables = tables_of(mask, [held, 0x2003], 0x2003);
            let blank = Buffers::blank(&tables);
            let mut walled = Buffers::of_set(&tables, [rival_read].into());
            store(&mut walled, 0, held);
            let rules = [(1, 14), (2, low_water), (4, 16), (8, 17)];
            for (lent, record, refusing) in [
                (&walled, &[19, 0, 15, 0][..], &rules[..]),
                (&blank, &[19, 0, 15, 0], &rules[1..]),
                (&walled, &[17, 0, 0], &rules[..2]),
                (&blank, &[17, 0, 0], &rules[1..2]),
                (&walled, &[18, 0, 1], &rules[1..2]),
                (&walled, &[17, 0, 2], &[(0, 13)]),
                (&walled, &[19, 0, 16, 0], &[(0, 13)]),
                (&walled, &[18, 0, 2], &[(0, 13)]),
            ] {
                let first = refusing.iter().find(|(bit, _)| mask & bit == *bit);
                let number = first.map_or(0, |(_, number)| *number);
                expect(&tables, lent, record, number);
            }
        }
    }
}

#[test]
fn masks_without_low_water_give_neither() {
    for mask in [0, 1, 4, 5, 8, 9, 12, 13] {
        for (asked, held, _) in COMPARED {
            let tables = tables_of(mask, [held, asked], asked);
            let lent = Buffers::blank(&tables);
            for record in [&[17, 0, 0][..], &[19, 0, 0, 0], &[18, 0, 1], &[16, 0, 0]] {
                expect(&tables, &lent, record, 0);
            }
        }
    }
}

/// Four persons and six folders whose levels are apart by few bits.
fn some_tables(random: &mut Random, mask: u8) -> Tables {
    let level = |random: &mut Random, kept: u16| {
        let ranks = [0x3000, 0x3000, 0x3000, 0x2000, 0x4000];
        let compartments = (random.number() as u16 | kept) & 7;
        (random.pick(&ranks) | compartments).to_le_bytes()
    };
    let mut parties = Vec::new();
    for person in 0..4 {
        parties.extend([3, person]);
        parties.extend(level(random, certain_compartments(person)));
    }
    for folder in 0..6 {
        parties.extend([4, folder, folder % 3, folder]);
        parties.extend(level(random, 4));
    }
    tables_with(random, mask, &parties)
}

/// Compartments that a person has for certain: most of the first persons'.
fn certain_compartments(person: u8) -> u16 {
    [7, 7, 5, 0][usize::from(person)]
}

/// A request of declared parties, or now and then of undeclared ones.
fn some_request(random: &mut Random) -> Request {
    let person = |random: &mut Random| random.below(41) as u8 / 10;
    request_of(random, person, |random| random.below(61) as u8 / 10)
}

/// Whether low-water grants, as document 01 says it, from bytes and bits alone.
fn granted_before(tables: &Tables, lent: &Buffers, request: &Request) -> bool {
    let stored = |person: u8| {
        let at = 2 * usize::from(person);
        u16::from_le_bytes([lent.levels[at], lent.levels[at + 1]])
    };
    let (asked, held) = match *request {
        Request::Read { .. } => return true,
        Request::Write { person, folder } | Request::Step { person, folder, .. } => {
            (tables.folder(folder).level.number(), stored(person))
        }
        Request::Start { person, other } => (stored(other), stored(person)),
    };
    asked >> 12 <= held >> 12 && (asked | held) & 0xfff == held & 0xfff
}

/// "What is granted doesn't alter": the number without low-water, and the
/// reckoning above, tell what is granted and what low-water refuses.
#[test]
fn what_is_granted_does_not_alter() {
    let mut random = Random::new(51);
    let mut seen: BTreeMap<(u8, u8), usize> = BTreeMap::new();
    for turn in 0..640 {
        let tables = some_tables(&mut random, (turn % 16) as u8);
        let mut without = tables.clone();
        without.mask &= !2;
        let mut lent = Buffers::blank(&tables);
        if random.chance(50) {
            let person = random.below(4);
            store(&mut lent, person, 0x3000 | random.number() as u16 & 0x1007);
        }
        for _ in 0..16 {
            let request = some_request(&mut random);
            let record = request.as_record();
            let others = lent.judge(&without, &record);
            let refused = tables.mask & 2 != 0
                && ![13, 14].contains(&others)
                && !granted_before(&tables, &lent, &request);
            let number = lent.put(&tables, &record);
            assert_eq!([15, 21].contains(&number), refused);
            if !refused {
                assert_eq!(number, others);
            }
            *seen.entry((record[0], number)).or_default() += 1;
        }
    }
    for kind in [17, 18, 19] {
        for number in [0, 15, 21] {
            assert!(seen[&(kind, number)] >= 100, "{seen:?}");
        }
    }
}

/// Puts records from blank: those granted, and what they leave.
fn put_from_blank(tables: &Tables, records: &[Vec<u8>]) -> (Vec<Vec<u8>>, Buffers) {
    let mut lent = Buffers::blank(tables);
    let granted = |record: &&Vec<u8>| lent.put(tables, record) == 0;
    let records = records.iter().filter(granted).cloned().collect();
    (records, lent)
}

/// "Order-free answers include the new number": where two lists from blank grant
/// the same set, the same list after each gets the same numbers and leaves the
/// same bytes.
#[test]
fn order_free_answers_include_21() {
    let mut random = Random::new(52);
    let (mut same_set, mut reordered, mut numbers) = (0, 0, [0; 22]);
    for turn in 0..2_400 {
        let mask = [2, 3, 6, 7, 10, 11, 14, 15][turn % 8];
        let tables = some_tables(&mut random, mask);
        let list: Vec<_> = (0..10)
            .map(|_| some_request(&mut random).as_record())
            .collect();
        let (mut granted, mut first) = put_from_blank(&tables, &list);
        let before = granted.clone();
        random.shuffle(&mut granted);
        let (again, mut second) = put_from_blank(&tables, &granted);
        if again.len() != granted.len() {
            continue;
        }
        same_set += 1;
        reordered += usize::from(before != granted);
        assert_eq!(first, second);
        for _ in 0..10 {
            let record = some_request(&mut random).as_record();
            let number = first.put(&tables, &record);
            assert_eq!(second.put(&tables, &record), number);
            numbers[usize::from(number)] += 1;
        }
        assert_eq!(first, second);
    }
    println!("{same_set} pairs of lists, {reordered} in another order; numbers {numbers:?}");
    assert!(reordered >= 500 && numbers[15] >= 500 && numbers[21] >= 500);
}
