//! Loading (section "Rulebook", and Point 1 of the later requests for kind 7).

use crate::level::Level;
use crate::numbers::*;
use crate::places::places;
use crate::tables::{Firm, Folder, Person, Role, Tables, STEPS};

/// What loading hands back.
#[derive(Clone, PartialEq, Eq, Debug)]
pub struct Loaded {
    pub number: u8,
    /// The offset of the end record or of the refused record.
    pub offset: usize,
    /// For a refused book, those of the empty book.
    pub tables: Tables,
}

/// What one good record leads to.
enum Taken {
    /// The offset of the record after it.
    Next(usize),
    End,
}

/// Takes one record after another, up to the end record or a refused one.
pub fn load(book: &[u8]) -> Loaded {
    let mut tables = Tables::empty_book();
    let mut offset = 0;
    loop {
        match take_record(book, offset, &mut tables) {
            Ok(Taken::Next(next)) => offset = next,
            Ok(Taken::End) => {
                return Loaded {
                    number: GRANTED,
                    offset,
                    tables,
                }
            }
            Err(number) => {
                return Loaded {
                    number,
                    offset,
                    tables: Tables::empty_book(),
                }
            }
        }
    }
}

/// The bytes after the end record; none for a refused book.
pub fn rest(book: &[u8]) -> &[u8] {
    let loaded = load(book);
    if loaded.number == GRANTED {
        &book[loaded.offset + 1..]
    } else {
        &[]
    }
}

/// The kind byte fixes the length of the body.
fn body_length(kind: u8) -> Option<usize> {
    match kind {
        0 => Some(0),
        1 => Some(1),
        2 => Some(2),
        3 => Some(3),
        4 => Some(5),
        5 => Some(9),
        6 => Some(2),
        7 => Some(1),
        _ => None,
    }
}

/// The checks of one record in the paper's order.
fn take_record(book: &[u8], offset: usize, tables: &mut Tables) -> Result<Taken, u8> {
    if offset >= book.len() {
        return Err(BOOK_CUT);
    }
    let kind = book[offset];
    let length = match body_length(kind) {
        Some(length) => length,
        None => return Err(KIND_UNKNOWN),
    };
    let is_first = offset == 0;
    let is_mask = kind == 1;
    if is_first != is_mask {
        return Err(MASK_PLACE);
    }
    let next = offset + 1 + length;
    if next > book.len() {
        return Err(BOOK_CUT);
    }
    let body = &book[offset + 1..next];
    match kind {
        0 => {
            check_relation(tables)?;
            return Ok(Taken::End);
        }
        1 => take_mask(body, tables)?,
        2 => take_firm(body, tables)?,
        3 => take_person(body, tables)?,
        4 => take_folder(body, tables)?,
        5 => take_role(body, tables)?,
        6 => take_pair(body, tables)?,
        _ => take_public(body, tables)?,
    }
    Ok(Taken::Next(next))
}

/// Refuses with a number unless the check holds.
fn need(holds: bool, number: u8) -> Result<(), u8> {
    if holds {
        Ok(())
    } else {
        Err(number)
    }
}

fn take_level(low: u8, high: u8) -> Level {
    Level::from_number(u16::from(low) + 256 * u16::from(high))
}

fn take_mask(body: &[u8], tables: &mut Tables) -> Result<(), u8> {
    let mask = body[0];
    need(mask <= 15, OUT_OF_RANGE)?;
    tables.mask = mask;
    Ok(())
}

fn take_firm(body: &[u8], tables: &mut Tables) -> Result<(), u8> {
    let (firm, class) = (body[0], body[1]);
    need(firm <= 63 && class <= 31, OUT_OF_RANGE)?;
    let entry = &mut tables.firms[usize::from(firm)];
    need(!entry.declared, DECLARED_BEFORE)?;
    *entry = Firm {
        declared: true,
        class,
    };
    Ok(())
}

fn take_person(body: &[u8], tables: &mut Tables) -> Result<(), u8> {
    let person = body[0];
    need(person <= 63, OUT_OF_RANGE)?;
    let entry = &mut tables.persons[usize::from(person)];
    need(!entry.declared, DECLARED_BEFORE)?;
    *entry = Person {
        declared: true,
        level: take_level(body[1], body[2]),
    };
    Ok(())
}

fn take_folder(body: &[u8], tables: &mut Tables) -> Result<(), u8> {
    let (folder, firm, kind) = (body[0], body[1], body[2]);
    need(folder <= 127 && firm <= 63 && kind <= 15, OUT_OF_RANGE)?;
    need(!tables.folder_declared(folder), DECLARED_BEFORE)?;
    need(tables.firm_declared(firm), FIRM_UNDECLARED)?;
    tables.folders[usize::from(folder)] = Folder {
        declared: true,
        firm,
        kind,
        level: take_level(body[3], body[4]),
        public: false,
    };
    Ok(())
}

fn take_role(body: &[u8], tables: &mut Tables) -> Result<(), u8> {
    let role = body[0];
    need(role <= 31, OUT_OF_RANGE)?;
    let entry = &mut tables.roles[usize::from(role)];
    need(!entry.declared, DECLARED_BEFORE)?;
    let mut rights = [false; 64];
    for (place, byte) in body[1..9].iter().enumerate() {
        let in_byte = places::<8>(u64::from(*byte));
        rights[8 * place..8 * place + 8].copy_from_slice(&in_byte);
    }
    *entry = Role {
        declared: true,
        rights,
    };
    Ok(())
}

fn take_pair(body: &[u8], tables: &mut Tables) -> Result<(), u8> {
    let (first, second) = (body[0], body[1]);
    need(first <= 15 && second <= 15, OUT_OF_RANGE)?;
    let entry = &mut tables.enables[usize::from(first)][usize::from(second)];
    need(!*entry, DECLARED_BEFORE)?;
    need(second != 0, CREATE_ENABLED)?;
    *entry = true;
    Ok(())
}

/// A mark of a public folder; whether the folder is declared is checked where
/// the firm of a folder is.
fn take_public(body: &[u8], tables: &mut Tables) -> Result<(), u8> {
    let folder = body[0];
    need(folder <= 127, OUT_OF_RANGE)?;
    let entry = &mut tables.folders[usize::from(folder)];
    need(!entry.public, DECLARED_BEFORE)?;
    need(entry.declared, FOLDER_UNDECLARED)?;
    entry.public = true;
    Ok(())
}

/// The checks at the end record: no circle of pairs, then every step but 0
/// that enables something is itself enabled.
fn check_relation(tables: &Tables) -> Result<(), u8> {
    for step in 0..STEPS {
        need(!reached_from(tables, step).contains(&step), CIRCLE)?;
    }
    for step in 1..STEPS {
        if enables_something(tables, step) {
            need(is_enabled(tables, step), NEVER_ENABLED)?;
        }
    }
    Ok(())
}

/// The steps reached from a step by one pair or more.
fn reached_from(tables: &Tables, start: usize) -> Vec<usize> {
    let mut reached: Vec<usize> = Vec::new();
    let mut to_follow = vec![start];
    while let Some(step) = to_follow.pop() {
        for next in 0..STEPS {
            if tables.enables[step][next] && !reached.contains(&next) {
                reached.push(next);
                to_follow.push(next);
            }
        }
    }
    reached
}

fn enables_something(tables: &Tables, step: usize) -> bool {
    (0..STEPS).any(|next| tables.enables[step][next])
}

fn is_enabled(tables: &Tables, step: usize) -> bool {
    (0..STEPS).any(|before| tables.enables[before][step])
}
