//! Number 11: exactly the tables that no load gives.

use reference::fields::set_field;
use reference::marked::BOOK;
use reference::{given, load, Tables};

/// The marked book's tables with some fields changed.
fn changed(fields: &[(u8, u8, u64)]) -> Tables {
    let mut tables = load(&BOOK).tables;
    for (which, index, value) in fields {
        set_field(&mut tables, *which, *index, *value);
    }
    tables
}

#[test]
fn loaded_tables_are_given() {
    assert!(given(&Tables::empty_book()));
    assert!(given(&changed(&[])));
}

#[test]
fn changes_that_some_other_book_declares() {
    for fields in [
        &[(0, 0, 0)][..],
        &[(2, 0, 31)],
        &[(1, 9, 1)],
        &[(1, 9, 1), (2, 9, 3)],
        &[(3, 9, 1)],
        &[(4, 0, 65_535)],
        &[(4, 0, 0), (3, 0, 0)],
        &[(6, 0, 2)],
        &[(7, 0, 15)],
        &[(8, 0, 65_535)],
        &[(5, 9, 1)],
        &[(5, 0, 0), (8, 0, 0)],
        &[(9, 0, 0), (10, 0, 0)],
        &[(9, 31, 1)],
        &[(10, 0, u64::MAX)],
        &[(11, 0, 0b1111_1111_1111_1110), (11, 1, 0)],
        &[(11, 1, 0)],
        &[(12, 0, 1)],
        &[(12, 130, 1 << 63)],
        &[(12, 0, 1), (12, 1, 1), (12, 2, 1)],
        &[(12, 0, 1), (12, 0, 0)],
        &[(12, 9, 0)],
        &[(5, 9, 1), (12, 9, 1)],
    ] {
        assert!(given(&changed(fields)), "{fields:?}");
    }
}

#[test]
fn changes_that_no_book_declares() {
    for fields in [
        &[(0, 0, 16)][..],
        &[(0, 0, 255)],
        &[(2, 0, 32)],
        // Undeclared entries are zero.
        &[(2, 9, 1)],
        &[(4, 9, 1)],
        &[(6, 9, 1)],
        &[(7, 9, 1)],
        &[(8, 9, 1)],
        &[(10, 9, 1)],
        &[(12, 3, 1)],
        &[(12, 127, 1)],
        &[(12, 255, 256)],
        &[(3, 0, 0)],
        &[(9, 0, 0)],
        &[(5, 2, 0)],
        &[(12, 0, 1), (5, 0, 0), (8, 0, 0)],
        // A folder's firm is declared.
        &[(1, 0, 0)],
        &[(6, 0, 3)],
        &[(6, 0, 64)],
        &[(6, 0, 255)],
        &[(7, 0, 16)],
        // Nothing enables 0, no circle, each enabling step is enabled.
        &[(11, 0, 1)],
        &[(11, 5, 1)],
        &[(11, 2, 0b100)],
        &[(11, 2, 0b10)],
        &[(11, 5, 0b1000000)],
        &[(11, 0, 0)],
    ] {
        assert!(!given(&changed(fields)), "{fields:?}");
    }
}

/// The same question answered from the ranges and checks one by one.
fn given_by_ranges(tables: &Tables) -> bool {
    let firms = tables
        .firms
        .iter()
        .all(|firm| firm.class <= 31 && (firm.declared || firm.class == 0));
    let persons = tables
        .persons
        .iter()
        .all(|person| person.declared || person.level.number() == 0);
    let folders = tables.folders.iter().all(|folder| {
        if folder.declared {
            folder.kind <= 15 && tables.firm_declared(folder.firm)
        } else {
            folder.firm == 0 && folder.kind == 0 && folder.level.number() == 0 && !folder.public
        }
    });
    let roles = tables
        .roles
        .iter()
        .all(|role| role.declared || role.rights == [false; 64]);
    tables.mask <= 15 && firms && persons && folders && roles && relation_is_good(tables)
}

/// Steps taken away one by one, each enabled by none that is left: with a
/// circle some would be left over.
fn relation_is_good(tables: &Tables) -> bool {
    let enabled = |step: usize| (0..16).any(|before| tables.enables[before][step]);
    let enables = |step: usize| (0..16).any(|after| tables.enables[step][after]);
    let mut left: Vec<usize> = (0..16).collect();
    for _ in 0..16 {
        let before = left.clone();
        left.retain(|step| before.iter().any(|other| tables.enables[*other][*step]));
    }
    left.is_empty() && !enabled(0) && (1..16).all(|step| !enables(step) || enabled(step))
}

#[test]
fn both_ways_to_ask_agree() {
    let mut random = reference::random::Random::new(7);
    let (mut yes, mut no) = (0, 0);
    for _ in 0..4000 {
        let mut tables = load(&BOOK).tables;
        for _ in 0..random.between(1, 3) {
            let which = random.below(13) as u8;
            let index = random.below(4) as u8;
            let value = match which {
                11 => random.number() & random.number() & random.number(),
                _ => random.number() % [2, 4, 40, 70000][random.below(4)],
            };
            set_field(&mut tables, which, index, value);
        }
        let answer = given(&tables);
        assert_eq!(answer, given_by_ranges(&tables), "{:?}", tables.as_book());
        if answer {
            yes += 1;
        } else {
            no += 1;
        }
    }
    assert!(yes > 500 && no > 500, "{yes} {no}");
}
