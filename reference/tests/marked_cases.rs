//! P1 to P10 of the paper, and cases of public folders (Point 1) and of a step
//! that alters (Point 2).

use reference::answers::answers;
use reference::marked::{book_with_rights, ANSWERS, BOOK, PUBLIC_BOOK, PUBLIC_LISTS, REQUESTS};
use reference::marked::{STEP_BOOK, STEP_REQUESTS};
use reference::{blank, load, rest, Buffers, Level, Tables};
use std::io::Write;
use std::process::{Command, Stdio};

const P1_TEXT: &str = "1 0\n2 14\n3 0\n4 15\n5 0\n6 17\n7 0\n8 0\n9 17\n10 13\n\
                       granted 5 refused 5\n";

fn number_and_offset(book: &[u8]) -> (u8, usize) {
    let loaded = load(book);
    (loaded.number, loaded.offset)
}

#[test]
fn p1_as_text() {
    let input = [&BOOK[..], &REQUESTS[..]].concat();
    assert_eq!(rest(&input), REQUESTS);
    assert_eq!(answers(&input), P1_TEXT);
}

/// What the program prints for an input.
fn program(input: &[u8]) -> String {
    let mut child = Command::new(env!("CARGO_BIN_EXE_answers"))
        .stdin(Stdio::piped())
        .stdout(Stdio::piped())
        .spawn()
        .unwrap();
    // The program may stop reading an input that is too long.
    let _ = child.stdin.take().unwrap().write_all(input);
    String::from_utf8(child.wait_with_output().unwrap().stdout).unwrap()
}

#[test]
fn p1_from_the_program() {
    let mut input = [&BOOK[..], &REQUESTS[..]].concat();
    assert_eq!(program(&input), P1_TEXT);
    assert_eq!(program(&BOOK), "granted 0 refused 0\n");
    assert_eq!(program(&BOOK[..53]), "book 1 at 53\n");
    assert_eq!(program(&[]), "book 1 at 0\n");
    input.push(16);
    assert!(program(&input).ends_with("11 12\ngranted 5 refused 6\n"));
}

#[test]
fn the_longest_input_of_the_program() {
    let mut input = vec![1, 0, 0];
    input.resize(65_536, 16);
    // 21,844 whole records and one byte of another.
    assert!(program(&input).ends_with("21845 12\ngranted 0 refused 21845\n"));
    input.push(16);
    assert_eq!(program(&input), "too long\n");
    input.resize(1_000_000, 16);
    assert_eq!(program(&input), "too long\n");
}

#[test]
fn p1_as_a_run_and_as_puts() {
    let tables = load(&BOOK).tables;
    let mut as_run = Buffers::blank(&tables);
    let mut as_puts = as_run.clone();
    let mut numbers = [99; 12];
    let ran = as_run.run(&tables, &REQUESTS, &mut numbers);
    assert_eq!((ran.number, ran.granted, ran.refused), (0, 5, 5));
    assert_eq!(numbers[..10], ANSWERS);
    assert_eq!(numbers[10..], [99, 99]);
    let mut left = &REQUESTS[..];
    for number in ANSWERS {
        assert_eq!(as_puts.judge(&tables, left), number);
        assert_eq!(as_puts.put(&tables, left), number);
        left = &left[if left[0] == 19 { 4 } else { 3 }..];
    }
    assert_eq!(as_run, as_puts);
    // Read 0 2, write 0 0, start 0 1, step 1 0 2 and step 1 1 2.
    let mut expected = Buffers::filled(0);
    for place in [2, 8192, 16385, 20480 + 64 * 32 + 1, 20480 + 64 * 33 + 1] {
        expected.history[place / 8] += 1 << (place % 8);
    }
    // Both persons are at 0x1001.
    expected.levels[..4].copy_from_slice(&[1, 16, 1, 16]);
    assert_eq!(as_run, expected);
    let found = as_run.standing(&tables, 0);
    assert_eq!((found.level, found.rights, found.firms), (0x1001, 3, 2));
    let found = as_run.standing(&tables, 1);
    assert_eq!((found.level, found.rights, found.firms), (0x1001, 2, 1));
}

#[test]
fn p2_no_bytes() {
    assert_eq!(number_and_offset(&[]), (1, 0));
}

#[test]
fn p3_end_without_mask() {
    assert_eq!(number_and_offset(&[0]), (3, 0));
}

#[test]
fn p4_a_step_never_enabled() {
    assert_eq!(number_and_offset(&[1, 15, 6, 3, 4, 0]), (9, 5));
}

#[test]
fn p5_create_enabled() {
    assert_eq!(number_and_offset(&[1, 15, 6, 0, 0, 0]), (7, 2));
}

#[test]
fn p6_masks() {
    assert_eq!(number_and_offset(&[1, 15, 0]), (0, 2));
    assert_eq!(number_and_offset(&[1, 16, 0]), (4, 0));
    assert_eq!(load(&[1, 15, 0]).tables.mask, 15);
    assert_eq!(load(&[1, 16, 0]).tables, Tables::empty_book());
    assert_eq!(load(&[1, 0, 0]).tables, Tables::empty_book());
}

#[test]
fn p7_the_meet() {
    let meet = Level::from_number(0x1001).meet(&Level::from_number(0x1002));
    assert_eq!(meet.number(), 0x1000);
}

#[test]
fn p8_started_after_two_reads() {
    let book = [
        1, 2, 2, 0, 0, 3, 0, 3, 16, 3, 1, 0, 16, 4, 0, 0, 0, 1, 16, 4, 1, 0, 0, 2, 16, 0,
    ];
    let tables = load(&book).tables;
    let mut lent = Buffers::blank(&tables);
    assert_eq!(lent.judge(&tables, &[18, 1, 0]), 21);
    assert_eq!(lent.put(&tables, &[16, 0, 0]), 0);
    assert_eq!(lent.judge(&tables, &[18, 1, 0]), 21);
    assert_eq!(lent.put(&tables, &[16, 0, 1]), 0);
    assert_eq!(lent.judge(&tables, &[18, 1, 0]), 0);
    assert_eq!(lent.standing(&tables, 0).level, 0x1000);
}

#[test]
fn p9_two_rival_firms() {
    let book = [
        1, 1, 2, 0, 5, 2, 1, 5, 2, 2, 5, 3, 0, 0, 0, 4, 0, 0, 0, 0, 0, 4, 1, 1, 0, 0, 0, 4, 2, 2,
        0, 0, 0, 0,
    ];
    let tables = load(&book).tables;
    let mut lent = Buffers::blank(&tables);
    lent.history[0] = 3;
    assert_eq!(lent.judge(&tables, &[16, 0, 0]), 0);
    assert_eq!(lent.judge(&tables, &[16, 0, 1]), 0);
    assert_eq!(lent.judge(&tables, &[16, 0, 2]), 14);
}

#[test]
fn p10_roles_before_pipeline() {
    let tables = load(&book_with_rights([3, 0, 3, 0, 1, 0, 3, 0])).tables;
    let mut lent = Buffers::filled(0xa5);
    let number = blank(&tables, &mut lent.history, &mut lent.levels);
    assert_eq!(number, 0);
    assert_eq!(lent.put(&tables, &[19, 1, 2, 2]), 16);
    let tables = load(&BOOK).tables;
    assert_eq!(lent.put(&tables, &[19, 1, 2, 2]), 17);
    assert_eq!(lent, Buffers::blank(&tables));
}

#[test]
fn a_public_folder_of_a_rival() {
    let expected = [
        "1 0\n2 14\n3 0\n4 14\ngranted 2 refused 2\n",
        "1 0\n2 0\n3 0\n4 14\ngranted 3 refused 1\n",
    ];
    for ((requests, numbers), text) in PUBLIC_LISTS.into_iter().zip(expected) {
        assert_eq!(program(&[&PUBLIC_BOOK[..], &requests].concat()), text);
        let tables = load(&PUBLIC_BOOK).tables;
        let mut lent = Buffers::blank(&tables);
        for (record, number) in requests.chunks(3).zip(numbers) {
            assert_eq!(lent.put(&tables, record), number);
        }
    }
}

#[test]
fn books_refused_for_a_mark() {
    for (book, text) in [
        (&[1, 1, 7, 0, 0][..], "book 19 at 2\n"),
        (&[1, 1, 7, 128, 0], "book 4 at 2\n"),
        (
            &[1, 1, 2, 0, 0, 4, 0, 0, 0, 0, 0, 7, 0, 7, 0, 0],
            "book 5 at 13\n",
        ),
        (&[1, 1, 8, 0, 0], "book 2 at 2\n"),
        (&[1, 1, 7], "book 1 at 2\n"),
        (
            &[1, 1, 7, 5, 2, 0, 0, 4, 5, 0, 0, 0, 0, 0],
            "book 19 at 2\n",
        ),
    ] {
        assert_eq!(program(book), text);
        assert_eq!(load(book).tables, Tables::empty_book());
        assert!(rest(book).is_empty());
    }
}

#[test]
fn a_step_that_alters() {
    assert_eq!(
        program(&[&STEP_BOOK[..], &STEP_REQUESTS].concat()),
        "1 0\n2 15\n3 21\n4 0\ngranted 2 refused 2\n"
    );
}
