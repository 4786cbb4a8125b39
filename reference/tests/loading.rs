//! Every loading number, at several offsets, and the order of the checks.

use reference::marked::BOOK;
use reference::{load, rest, Tables};

/// Good records, one put before the bad one after another.
const GOOD: [&[u8]; 11] = [
    &[1, 15],
    &[2, 63, 31],
    &[3, 63, 255, 255],
    &[4, 127, 63, 15, 255, 255],
    &[5, 31, 255, 255, 255, 255, 255, 255, 255, 255],
    &[6, 0, 15],
    &[6, 15, 14],
    &[2, 1, 0],
    &[4, 0, 1, 0, 0, 0],
    &[7, 127],
    &[7, 0],
];

/// Expects a number for some bytes after 1, 2, 3 and more good records; the
/// offset is that of the bytes plus `after`.
fn expect(number: u8, first: usize, bytes: &[u8], after: usize) {
    for count in first..=GOOD.len() {
        let before = GOOD[..count].concat();
        let book = [&before[..], bytes].concat();
        let loaded = load(&book);
        assert_eq!(
            (loaded.number, loaded.offset),
            (number, before.len() + after),
            "{book:?}"
        );
        if number != 0 {
            assert_eq!(loaded.tables, Tables::empty_book());
            assert!(rest(&book).is_empty());
        }
    }
}

#[test]
fn good_books_load() {
    expect(0, 1, &[0], 0);
    expect(0, 1, &[0, 1, 2, 3], 0);
    assert_eq!(rest(&[1, 0, 0, 9, 8, 7]), [9, 8, 7]);
    assert_eq!(rest(&[1, 0, 0]), []);
}

#[test]
fn number_1() {
    expect(1, 1, &[], 0);
    for record in [
        &[2, 0, 0][..],
        &[3, 0, 0, 0],
        &[4, 5, 63, 0, 0, 0],
        &[5, 0, 0, 0, 0, 0, 0, 0, 0, 0],
        &[6, 0, 1],
        &[7, 127],
    ] {
        for length in 1..record.len() {
            expect(1, 1, &record[..length], 0);
        }
    }
    assert_eq!(load(&[1]).number, 1);
    assert_eq!(load(&[1]).offset, 0);
    // Before the ranges.
    expect(1, 1, &[4, 255, 255], 0);
}

#[test]
fn every_cut_of_the_marked_book() {
    for length in 0..BOOK.len() {
        let loaded = load(&BOOK[..length]);
        assert_eq!(loaded.number, 1);
        let starts = [0, 2, 5, 8, 11, 15, 19, 25, 31, 37, 47, 50, 53];
        let begun = starts.iter().rev().find(|start| **start <= length);
        assert_eq!(Some(&loaded.offset), begun);
    }
}

#[test]
fn number_2() {
    for kind in 8..=255 {
        expect(2, 1, &[kind], 0);
        // Before the place of kind 1.
        assert_eq!(load(&[kind]).number, 2);
    }
}

#[test]
fn number_3() {
    expect(3, 1, &[1, 15, 0], 0);
    // Before the body and the ranges.
    expect(3, 1, &[1], 0);
    expect(3, 1, &[1, 16], 0);
    for kind in [0, 2, 3, 4, 5, 6, 7] {
        assert_eq!(load(&[kind]).number, 3);
        assert_eq!(load(&[kind, 1, 0, 0]).offset, 0);
    }
}

#[test]
fn number_4() {
    for body in [
        &[2, 64, 0][..],
        &[2, 0, 32],
        &[2, 255, 255],
        &[3, 64, 0, 0],
        &[4, 128, 63, 0, 0, 0],
        &[4, 5, 64, 0, 0, 0],
        &[4, 5, 63, 16, 0, 0],
        &[5, 32, 0, 0, 0, 0, 0, 0, 0, 0],
        &[6, 16, 1],
        &[6, 1, 16],
        &[7, 128],
        &[7, 129],
        // Before 5, 6 and 7.
        &[4, 127, 63, 16, 0, 0],
        &[4, 5, 62, 16, 0, 0],
        &[6, 16, 0],
    ] {
        expect(4, 1, body, 0);
    }
    // A mark out of range is that of no folder, whatever its low seven bits.
    for folder in 128..=255 {
        expect(4, 1, &[7, folder, 0], 0);
    }
    for mask in 16..=255 {
        assert_eq!(load(&[1, mask, 0]).number, 4);
    }
}

#[test]
fn number_5() {
    expect(5, 2, &[2, 63, 0], 0);
    expect(5, 3, &[3, 63, 0, 0], 0);
    expect(5, 4, &[4, 127, 63, 0, 0, 0], 0);
    // Before 6.
    expect(5, 4, &[4, 127, 62, 0, 0, 0], 0);
    expect(5, 5, &[5, 31, 0, 0, 0, 0, 0, 0, 0, 0], 0);
    expect(5, 6, &[6, 0, 15], 0);
    expect(5, 7, &[6, 15, 14], 0);
    expect(5, 10, &[7, 127], 0);
    expect(5, 11, &[7, 0, 0], 0);
    // A mark makes a folder no other one.
    expect(5, 10, &[4, 127, 63, 15, 255, 255], 0);
}

#[test]
fn number_6() {
    expect(6, 1, &[4, 5, 62, 0, 0, 0, 2, 62, 0, 0], 0);
}

#[test]
fn number_7() {
    for step in 0..16 {
        expect(7, 1, &[6, step, 0, 0], 0);
    }
}

#[test]
fn number_8() {
    expect(8, 1, &[6, 5, 5, 0], 3);
    expect(8, 1, &[6, 5, 6, 6, 6, 5, 0], 6);
    expect(8, 1, &[6, 5, 6, 6, 6, 7, 6, 7, 5, 0], 9);
    expect(8, 1, &[6, 0, 5, 6, 5, 6, 6, 6, 5, 0], 9);
    // Before 9, and not before the end record.
    expect(8, 1, &[6, 3, 4, 6, 5, 5, 0], 6);
    expect(1, 1, &[6, 5, 5], 3);
}

#[test]
fn number_9() {
    expect(9, 1, &[6, 3, 4, 0], 3);
    expect(9, 1, &[6, 3, 4, 6, 4, 5, 0], 6);
    expect(9, 1, &[6, 0, 4, 6, 3, 4, 0], 6);
    expect(0, 1, &[6, 3, 4, 6, 0, 3, 0], 6);
}

#[test]
fn number_19() {
    for folder in 1..127 {
        expect(19, 1, &[7, folder], 0);
        expect(19, 1, &[7, folder, 0], 0);
        // Declared afterwards is not declared earlier.
        expect(19, 2, &[7, folder, 4, folder, 63, 0, 0, 0, 0], 0);
    }
    // The first and the last folder too, and each right before its record.
    assert_eq!(load(&[1, 15, 7, 0, 0]).number, 19);
    assert_eq!(load(&[1, 15, 7, 127, 0]).number, 19);
    let book = [&GOOD[..3].concat()[..], &[7, 127], GOOD[3], &[0]].concat();
    assert_eq!((load(&book).number, load(&book).offset), (19, 9));
}

#[test]
fn tables_hold_the_mark_of_a_folder_and_of_no_other() {
    for folder in 0..128 {
        let book = [&full_folders()[..], &[7, folder, 0]].concat();
        let tables = load(&book).tables;
        let mut expected = load(&[&full_folders()[..], &[0]].concat()).tables;
        assert!(expected.folders.iter().all(|entry| !entry.public));
        expected.folders[usize::from(folder)].public = true;
        assert_eq!(tables, expected);
        assert_eq!(tables.as_book(), book);
    }
}

/// A book of every folder, without its end.
fn full_folders() -> Vec<u8> {
    let mut book = vec![1, 15, 2, 9, 3];
    for folder in 0..128 {
        book.extend([4, folder, 9, folder / 8, 1, folder]);
    }
    book
}

#[test]
fn tables_hold_what_the_records_declare() {
    let tables = load(&BOOK).tables;
    assert_eq!(tables.mask, 15);
    assert!(tables.firms[1].declared && tables.firms[2].class == 1);
    assert!(!tables.firms[3].declared);
    assert_eq!(tables.persons[0].level.number(), 0x2003);
    assert_eq!(tables.folders[2].firm, 2);
    assert_eq!(tables.folders[2].kind, 1);
    assert_eq!(tables.folders[2].level.number(), 0x1001);
    let rights: Vec<usize> = (0..64).filter(|r| tables.roles[0].rights[*r]).collect();
    assert_eq!(rights, [0, 1, 16, 17, 32, 48, 49, 50]);
    assert!(tables.enables[0][1] && tables.enables[1][2] && !tables.enables[0][2]);
    assert_eq!(tables.as_book(), BOOK);
}

#[test]
fn a_full_book_loads() {
    let mut book = vec![1, 15];
    for firm in 0..64 {
        book.extend([2, firm, firm / 2]);
    }
    for person in 0..64 {
        book.extend([3, person, person, 255]);
    }
    for folder in 0..128 {
        book.extend([4, folder, folder / 2, folder / 8, 1, folder]);
    }
    for folder in (0..128).step_by(3) {
        book.extend([7, folder]);
    }
    for role in 0..32 {
        book.extend([5, role, role, 0, 0, 0, 0, 0, 0, 255]);
    }
    for first in 0..16 {
        for second in first + 1..16 {
            book.extend([6, first, second]);
        }
    }
    book.push(0);
    let loaded = load(&book);
    assert_eq!((loaded.number, loaded.offset), (0, book.len() - 1));
    assert_eq!(loaded.tables.as_book(), book);
}
