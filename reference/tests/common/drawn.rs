//! Tables and requests drawn at random, for the tests of low-water.

use reference::random::Random;
use reference::{load, Request, Tables};

/// Three firms of two classes, these records of persons and folders, two roles of
/// many rights, and the pairs 0 1 and 1 2.
pub fn tables_with(random: &mut Random, mask: u8, parties: &[u8]) -> Tables {
    let mut book = vec![1, mask, 2, 0, 0, 2, 1, 0, 2, 2, 1];
    book.extend(parties);
    for role in 0..2 {
        book.extend([5, role]);
        book.extend((random.number() | random.number() | random.number()).to_le_bytes());
    }
    book.extend([6, 0, 1, 6, 1, 2, 0]);
    let loaded = load(&book);
    assert_eq!(loaded.number, 0);
    loaded.tables
}

/// A request of parties so drawn; five of six are of a kind that low-water judges.
pub fn request_of(
    random: &mut Random,
    draw_person: fn(&mut Random) -> u8,
    draw_folder: fn(&mut Random) -> u8,
) -> Request {
    let (person, folder) = (draw_person(random), draw_folder(random));
    match random.below(6) {
        0 => Request::Read { person, folder },
        1..=2 => Request::Write { person, folder },
        3 => Request::Start {
            person,
            other: draw_person(random),
        },
        _ => Request::Step {
            person,
            step: random.below(4) as u8,
            folder,
        },
    }
}
