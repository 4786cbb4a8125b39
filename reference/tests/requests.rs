//! The numbers 10 to 18 and 20, the four rules and refused calls.

mod common;

use common::{marked, with_mask, NO_RUN};
use reference::fields::set_field;
use reference::marked::REQUESTS;
use reference::{blank, judge, load, put, run, standing, Buffers, Ran, Standing, Tables};

fn set_bit(history: &mut [u8], place: usize) {
    history[place / 8] |= 1 << (place % 8);
}

fn spoilt() -> Tables {
    let mut tables = marked();
    set_field(&mut tables, 0, 0, 16);
    tables
}

/// Puts records and expects their numbers; refused ones change nothing.
fn expect_puts(tables: &Tables, lent: &mut Buffers, puts: &[(&[u8], u8)]) {
    for (record, number) in puts {
        let before = lent.clone();
        assert_eq!(lent.judge(tables, record), *number, "{record:?}");
        assert_eq!(*lent, before);
        assert_eq!(lent.put(tables, record), *number, "{record:?}");
        if *number != 0 {
            assert_eq!(*lent, before);
        }
    }
}

const NO_STANDING: Standing = Standing {
    number: 0,
    level: 0,
    rights: 0,
    firms: 0,
};

/// Each call answers a number of its own and changes no byte.
fn expect_refused(number: u8, tables: &Tables, lent: &Buffers) {
    let before = lent.clone();
    let Buffers {
        mut history,
        mut levels,
    } = before.clone();
    let mut answers = [7; 16];
    assert_eq!(blank(tables, &mut history, &mut levels), number);
    for record in [&[][..], &[9], &[16, 99, 0], &[16, 0, 0]] {
        assert_eq!(judge(tables, &history, &levels, record), number);
        assert_eq!(put(tables, &mut history, &mut levels, record), number);
    }
    for length in [0, 2, 16] {
        let room = &mut answers[..length];
        let ran = run(tables, &mut history, &mut levels, &REQUESTS, room);
        assert_eq!(ran, Ran { number, ..NO_RUN });
    }
    for person in [0, 200] {
        let found = standing(tables, &history, &levels, person);
        let expected = Standing {
            number,
            ..NO_STANDING
        };
        assert_eq!(found, expected);
    }
    assert_eq!(Buffers { history, levels }, before);
    assert_eq!(answers, [7; 16]);
}

#[test]
fn number_10_wrong_history_length() {
    for length in [0, 1, 18_943, 18_945, 18_960] {
        let mut lent = Buffers::filled(0xa5);
        lent.history.resize(length, 0xa5);
        // Before every other check.
        for levels in [0, 127, 128, 129] {
            lent.levels.resize(levels, 0xa5);
            expect_refused(10, &marked(), &lent);
            expect_refused(10, &spoilt(), &lent);
        }
    }
}

#[test]
fn number_20_wrong_length_of_levels() {
    for length in [0, 1, 2, 64, 126, 127, 129, 130, 144, 256] {
        let mut lent = Buffers::filled(0xa5);
        lent.levels.resize(length, 0xa5);
        // After 10 and before every other check.
        expect_refused(20, &marked(), &lent);
        expect_refused(20, &spoilt(), &lent);
    }
}

#[test]
fn number_11_tables_that_no_load_gives() {
    // After 10 and 20, before 12, 13 and 18.
    expect_refused(11, &spoilt(), &Buffers::filled(0xa5));
    expect_refused(11, &spoilt(), &Buffers::blank(&marked()));
}

#[test]
fn blank_makes_every_byte_of_the_history_zero() {
    let mut lent = Buffers::filled(0xa5);
    let number = blank(&marked(), &mut lent.history, &mut lent.levels);
    assert_eq!(number, 0);
    assert_eq!(lent.history, vec![0; 18_944]);
}

#[test]
fn number_12_unreadable_requests() {
    let mut lent = Buffers::blank(&marked());
    expect_puts(&marked(), &mut lent, &[(&[], 12)]);
    for kind in 0..=255 {
        if !(16..=19).contains(&kind) {
            expect_puts(&marked(), &mut lent, &[(&[kind, 0, 0, 0], 12)]);
        }
    }
    for record in [&[16, 99, 99][..], &[17, 0, 0], &[18, 0, 1], &[19, 99, 0, 2]] {
        for length in 0..record.len() {
            expect_puts(&marked(), &mut lent, &[(&record[..length], 12)]);
        }
    }
}

#[test]
fn what_follows_a_record_is_passed_over() {
    let mut lent = Buffers::blank(&marked());
    expect_puts(
        &marked(),
        &mut lent,
        &[(&[17, 0, 0, 99, 99, 99], 0), (&[19, 1, 0, 2, 0], 0)],
    );
}

#[test]
fn number_13_undeclared() {
    let mut lent = Buffers::blank(&marked());
    expect_puts(
        &marked(),
        &mut lent,
        &[
            (&[16, 2, 0], 13),
            (&[16, 64, 0], 13),
            (&[16, 255, 0], 13),
            (&[16, 0, 3], 13),
            (&[17, 0, 128], 13),
            (&[17, 0, 255], 13),
            (&[18, 0, 2], 13),
            (&[18, 2, 0], 13),
            (&[18, 0, 64], 13),
            (&[19, 0, 16, 0], 13),
            (&[19, 0, 255, 0], 13),
            (&[19, 2, 0, 0], 13),
            (&[19, 0, 0, 3], 13),
        ],
    );
    for person in [2, 63, 64, 255] {
        let found = lent.standing(&marked(), person);
        assert_eq!(
            found,
            Standing {
                number: 13,
                ..NO_STANDING
            }
        );
    }
}

#[test]
fn number_14_wall() {
    let mut lent = Buffers::blank(&with_mask(1));
    expect_puts(
        &with_mask(1),
        &mut lent,
        &[
            (&[17, 0, 0], 0),
            (&[16, 0, 1], 14),
            (&[17, 0, 1], 14),
            (&[19, 0, 5, 1], 14),
            (&[16, 0, 0], 0),
            (&[16, 0, 0], 0),
            (&[16, 0, 2], 0),
            (&[18, 0, 1], 0),
            // Another person is free, and a step is an access.
            (&[19, 1, 9, 1], 0),
            (&[16, 1, 0], 14),
            (&[16, 1, 1], 0),
        ],
    );
    let found = lent.standing(&with_mask(1), 0);
    let expected = Standing {
        number: 0,
        level: 0x1001,
        rights: 4,
        firms: 2,
    };
    assert_eq!(found, expected);
}

#[test]
fn number_15_low_water() {
    let mut lent = Buffers::blank(&with_mask(2));
    expect_puts(
        &with_mask(2),
        &mut lent,
        &[
            (&[17, 1, 0], 15),
            (&[17, 1, 2], 0),
            (&[18, 1, 0], 15),
            (&[18, 0, 1], 0),
            (&[18, 0, 0], 0),
            (&[17, 0, 0], 0),
            (&[19, 1, 3, 0], 15),
            (&[19, 0, 3, 0], 0),
            (&[17, 0, 0], 0),
            (&[16, 0, 2], 0),
            (&[17, 0, 0], 15),
            (&[19, 0, 3, 0], 15),
            (&[18, 1, 0], 0),
        ],
    );
}

#[test]
fn number_16_roles() {
    let tables = load(&[
        1, 4, 2, 0, 0, 3, 0, 0, 0, 3, 1, 0, 0, 4, 0, 0, 0, 0, 0, 4, 1, 0, 1, 0, 0, // parties
        5, 0, 1, 0, 1, 0, 0, 0, 0, 0, // read and write kind 0
        5, 1, 3, 0, 0, 0, 1, 0, 1, 128, // read kinds 0 and 1, start, steps 0 and 15
        0,
    ])
    .tables;
    let mut lent = Buffers::blank(&tables);
    expect_puts(
        &tables,
        &mut lent,
        &[
            (&[17, 0, 1], 16),
            (&[19, 0, 1, 0], 16),
            (&[16, 0, 0], 0),
            (&[18, 1, 0], 0),
            (&[17, 0, 0], 0),
            (&[18, 0, 1], 16),
            (&[16, 0, 1], 16),
            (&[17, 1, 0], 16),
            (&[19, 1, 15, 0], 0),
        ],
    );
    let mut no_role = tables.clone();
    set_field(&mut no_role, 9, 0, 0);
    set_field(&mut no_role, 10, 0, 0);
    set_field(&mut no_role, 9, 1, 0);
    set_field(&mut no_role, 10, 1, 0);
    let refused: [(&[u8], u8); 2] = [(&[16, 0, 0], 16), (&[18, 0, 0], 16)];
    expect_puts(&no_role, &mut Buffers::blank(&no_role), &refused);
}

#[test]
fn number_17_pipeline() {
    // 0 enables 9 and 2, 9 enables 1, 1 enables 5, 2 enables 5.
    let tables = load(&[
        1, 8, 2, 0, 0, 3, 0, 0, 0, 3, 1, 0, 0, 4, 0, 0, 0, 0, 0, 4, 1, 0, 0, 0, 0, 6, 0, 9, 6, 9,
        1, 6, 1, 5, 6, 0, 2, 6, 2, 5, 0,
    ])
    .tables;
    let mut lent = Buffers::blank(&tables);
    expect_puts(
        &tables,
        &mut lent,
        &[
            (&[19, 0, 9, 0], 17),
            (&[19, 0, 0, 0], 0),
            (&[19, 0, 0, 0], 17),
            (&[19, 1, 0, 0], 17),
            (&[19, 1, 9, 0], 0),
            (&[19, 1, 2, 0], 17),
            (&[19, 1, 5, 0], 17),
            (&[19, 0, 1, 0], 0),
            (&[19, 0, 1, 0], 17),
            (&[19, 0, 5, 0], 0),
            (&[19, 0, 12, 0], 17),
            (&[19, 1, 0, 1], 0),
            (&[16, 0, 0], 0),
            (&[17, 0, 0], 0),
            (&[18, 0, 1], 0),
        ],
    );
    // A history that no list leaves: 2 is done although 9 was.
    let mut foreign = Buffers::blank(&tables);
    set_bit(&mut foreign.history, 20480 + 64 * 2);
    set_bit(&mut foreign.history, 20480 + 64 * 9 + 1);
    expect_puts(&tables, &mut foreign, &[(&[19, 0, 0, 0], 17)]);
    assert_eq!(foreign.judge(&tables, &[19, 0, 5, 0]), 0);
    assert_eq!(foreign.judge(&tables, &[19, 0, 1, 0]), 0);
}

#[test]
fn rules_not_in_force_refuse_nothing() {
    let mut lent = Buffers::blank(&with_mask(0));
    let mut answers = [0; 10];
    let ran = lent.run(&with_mask(0), &REQUESTS, &mut answers);
    assert_eq!((ran.granted, ran.refused), (9, 1));
    assert_eq!(answers, [0, 0, 0, 0, 0, 0, 0, 0, 0, 13]);
}

#[test]
fn bits_of_undeclared_parties_are_passed_over() {
    let mut lent = Buffers::blank(&marked());
    set_bit(&mut lent.history, 3); // read 0 3, folder 3 undeclared
    set_bit(&mut lent.history, 128 * 2); // read 2 0, person 2 undeclared
    set_bit(&mut lent.history, 16384 + 2); // start 0 2
    set_bit(&mut lent.history, 20480 + 64 * (16 * 2) + 2); // step 2 0 2
    let before = lent.clone();
    let expected = Standing {
        level: 0x2003,
        ..NO_STANDING
    };
    assert_eq!(lent.standing(&marked(), 0), expected);
    expect_puts(&marked(), &mut lent, &[(&[19, 1, 1, 2], 17)]);
    assert_eq!(lent, before);
    expect_puts(&marked(), &mut lent, &[(&[19, 1, 0, 2], 0)]);
    // The right of a start is not used by a start of an undeclared person.
    let mut tables = with_mask(4);
    tables.roles[0].rights[32] = false;
    expect_puts(&tables, &mut lent, &[(&[16, 0, 0], 0), (&[18, 0, 1], 16)]);
    // The bits themselves stay.
    for (place, byte) in before.history.iter().enumerate() {
        assert_eq!(lent.history[place] & byte, *byte);
    }
}
