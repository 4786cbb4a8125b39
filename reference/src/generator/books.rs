//! Books for the files of calls: good ones of any size, and refused ones.

use super::plans::{Plan, LONGEST_ROW};
use crate::random::Random;

/// A book that loads, with some bytes after the end record now and then.
pub fn good_book(random: &mut Random, plan: &Plan) -> Vec<u8> {
    let mut book = joined(&good_records(random, plan));
    book.push(0);
    if random.chance(20) {
        let count = random.below(20);
        book.extend((0..count).map(|_| random.byte()));
    }
    book
}

pub fn joined(records: &[Vec<u8>]) -> Vec<u8> {
    records.concat()
}

/// The records of a good book without its end: the mask, then the others in
/// any order, but each folder after its firm and each mark after its folder.
pub fn good_records(random: &mut Random, plan: &Plan) -> Vec<Vec<u8>> {
    // Each record gets a key by which they are put in order.
    let mut keyed: Vec<(usize, Vec<u8>)> = Vec::new();
    let firms = random.some_below(64, plan.firms);
    let classes = random.some_below(32, plan.classes);
    let mut firm_keys = Vec::new();
    for firm in &firms {
        let key = random.below(1000);
        firm_keys.push(key);
        keyed.push((key, vec![2, *firm, random.pick(&classes)]));
    }
    let row = random.pick(plan.row);
    let levels = some_levels(random, row);
    keyed.extend(some_persons(random, plan.persons, &levels));
    for folder in random.some_below(128, plan.folders) {
        let place = random.below(firms.len());
        let level = random.pick(&levels).to_le_bytes();
        let kind = random.below(16) as u8;
        let key = firm_keys[place] + 1 + random.below(1000);
        keyed.push((key, vec![4, folder, firms[place], kind, level[0], level[1]]));
        if random.chance(plan.public) {
            keyed.push((key + 1 + random.below(1000), vec![7, folder]));
        }
    }
    for role in random.some_below(32, plan.roles) {
        let mut record = vec![5, role];
        record.extend(some_rights(random, plan.rights).to_le_bytes());
        keyed.push((random.below(2000), record));
    }
    for (first, second) in good_pairs(random, plan.steps) {
        keyed.push((random.below(2000), vec![6, first, second]));
    }
    keyed.sort_by_key(|(key, _)| *key);
    let mut records = vec![vec![1, plan.mask]];
    records.extend(keyed.into_iter().map(|(_, record)| record));
    records
}

/// Some levels of folders: a falling row of them, and two at random beside the
/// longest. From one to the next the rank falls, or compartments are taken away,
/// or both, so that each may be what is missing.
fn some_levels(random: &mut Random, row: usize) -> Vec<u16> {
    let mut levels = Vec::new();
    let mut rank = 15;
    let mut compartments: u16 = 0x0fff;
    for _ in 0..row {
        levels.push(rank * 4096 + compartments);
        let falls = random.below(10);
        if falls >= 7 {
            rank -= random.between(1, 2) as u16;
        }
        if falls < 7 || falls == 9 {
            for _ in 0..random.between(1, 3) {
                compartments &= !(1 << random.below(12));
            }
        }
    }
    if row == LONGEST_ROW {
        levels.push(random.number() as u16);
        levels.push(random.number() as u16);
    }
    levels
}

/// The records of persons with their keys.
fn some_persons(random: &mut Random, count: usize, levels: &[u16]) -> Vec<(usize, Vec<u8>)> {
    let mut keyed = Vec::new();
    for person in random.some_below(64, count) {
        let level = some_person_level(random, levels);
        let key = random.below(2000);
        keyed.push((key, vec![3, person, level[0], level[1]]));
    }
    keyed
}

fn some_person_level(random: &mut Random, levels: &[u16]) -> [u8; 2] {
    let level = match random.below(10) {
        0 => random.number() as u16,
        1 => 65535,
        2 => random.pick(levels),
        _ => levels[random.below(levels.len().min(3))],
    };
    level.to_le_bytes()
}

fn some_rights(random: &mut Random, percents: &[usize]) -> u64 {
    let percent = random.pick(percents);
    let mut rights = 0;
    for _ in 0..64 {
        rights = rights * 2 + u64::from(random.chance(percent));
    }
    rights
}

/// Pairs without a circle in which each enabling step but 0 is enabled: steps
/// in any order with 0 first, each enabled by one to three before it.
fn good_pairs(random: &mut Random, steps: usize) -> Vec<(u8, u8)> {
    let mut order = vec![0];
    let others = random.some_below(15, steps - 1);
    order.extend(others.iter().map(|step| step + 1));
    let mut pairs = Vec::new();
    for place in 1..order.len() {
        for _ in 0..random.between(1, 3) {
            let pair = (order[random.below(place)], order[place]);
            if !pairs.contains(&pair) {
                pairs.push(pair);
            }
        }
    }
    pairs
}

/// Bad ends of a book whose records so far are good: the refused record, or
/// what leads to a refused end record.
pub fn bad_ends(random: &mut Random, records: &[Vec<u8>]) -> Vec<Vec<u8>> {
    let mut ends = Vec::new();
    ends.extend(cut_ends(random));
    ends.extend(unknown_kinds(random));
    ends.extend(masks_again(random));
    ends.extend(out_of_range(random, records));
    ends.extend(declared_again(random, records));
    ends.extend(undeclared_firms(random, records));
    ends.extend(undeclared_folders(random, records));
    ends.extend(bad_pairs(random));
    for end in &mut ends {
        if random.chance(60) {
            end.push(0);
        }
        if random.chance(30) {
            let count = random.below(6);
            end.extend((0..count).map(|_| random.byte()));
        }
    }
    // The book that simply stops, and each body cut: nothing may follow.
    ends.push(Vec::new());
    for kind in 2..=7 {
        let length = [2, 3, 5, 9, 2, 1][kind as usize - 2];
        let mut cut = vec![kind];
        for _ in 0..random.below(length) {
            cut.push(random.byte());
        }
        ends.push(cut);
    }
    ends
}

/// An out-of-range field in a body that is cut as well: 1 stands before 4.
fn cut_ends(random: &mut Random) -> Vec<Vec<u8>> {
    vec![vec![4, 128 + random.below(128) as u8, 255], vec![5, 32, 7]]
}

fn unknown_kinds(random: &mut Random) -> Vec<Vec<u8>> {
    vec![vec![8], vec![255], vec![random.between(9, 254) as u8, 1]]
}

fn masks_again(random: &mut Random) -> Vec<Vec<u8>> {
    vec![vec![1], vec![1, 15], vec![1, random.byte()]]
}

fn out_of_range(random: &mut Random, records: &[Vec<u8>]) -> Vec<Vec<u8>> {
    let high = random.between(64, 255) as u8;
    let mut ends = vec![
        vec![2, 64, 0],
        vec![2, high, 32],
        vec![2, 0, 32],
        vec![2, 63, random.between(32, 255) as u8],
        vec![3, 64, 0, 0],
        vec![3, high, 1, 2],
        vec![4, 128, 0, 0, 0, 0],
        vec![4, 127, 64, 0, 0, 0],
        vec![4, 0, high, 15, 0, 0],
        vec![4, 1, 1, 16, 0, 0],
        vec![4, 2, 2, random.between(16, 255) as u8, 0, 0],
        vec![5, 32, 0, 0, 0, 0, 0, 0, 0, 0],
        vec![6, 16, 1],
        vec![6, 1, 16],
        vec![6, random.between(16, 255) as u8, 0],
        vec![7, 128],
        vec![7, random.between(129, 255) as u8],
    ];
    // A folder declared before and out of range: 4 stands before 5.
    if let Some(folder) = of_kind(random, records, 4) {
        ends.push(vec![4, folder[1], folder[2], 16, 0, 0]);
    }
    ends
}

/// Each kind of record again, with another body where it may have one.
fn declared_again(random: &mut Random, records: &[Vec<u8>]) -> Vec<Vec<u8>> {
    let mut ends = Vec::new();
    for kind in 2..=7 {
        if let Some(mut record) = of_kind(random, records, kind) {
            ends.push(record.clone());
            match kind {
                2 => record[2] = random.below(32) as u8,
                3 => record[3] = random.byte(),
                4 => record[2] = random.below(64) as u8,
                5 => record[2] = random.byte(),
                _ => {}
            }
            ends.push(record);
        }
    }
    // A folder marked twice at the end.
    if let Some(folder) = of_kind(random, records, 4) {
        ends.push(vec![7, folder[1], 7, folder[1]]);
    }
    ends
}

fn undeclared_firms(random: &mut Random, records: &[Vec<u8>]) -> Vec<Vec<u8>> {
    let mut ends = Vec::new();
    for _ in 0..2 {
        let firm = random.below(64) as u8;
        let folder = random.below(128) as u8;
        let firm_is_free = !records.iter().any(|r| r[0] == 2 && r[1] == firm);
        let folder_is_free = !records.iter().any(|r| r[0] == 4 && r[1] == folder);
        if firm_is_free && folder_is_free {
            ends.push(vec![4, folder, firm, 3, 1, 2, 2, firm, 1]);
        }
    }
    ends
}

/// Marks of folders not declared earlier, but perhaps right after.
fn undeclared_folders(random: &mut Random, records: &[Vec<u8>]) -> Vec<Vec<u8>> {
    let mut ends = Vec::new();
    for _ in 0..2 {
        let folder = random.below(128) as u8;
        if records.iter().any(|r| r[0] == 4 && r[1] == folder) {
            continue;
        }
        ends.push(vec![7, folder]);
        if let Some(firm) = of_kind(random, records, 2) {
            ends.push(vec![7, folder, 4, folder, firm[1], 3, 1, 2]);
        }
    }
    ends
}

/// The records of a good book with one mark moved before its folder.
pub fn with_early_mark(random: &mut Random, records: &[Vec<u8>]) -> Option<Vec<Vec<u8>>> {
    let mark = of_kind(random, records, 7)?;
    let mut moved: Vec<Vec<u8>> = records.iter().filter(|r| **r != mark).cloned().collect();
    let folder = moved.iter().position(|r| r[0] == 4 && r[1] == mark[1])?;
    moved.insert(random.between(1, folder), mark);
    Some(moved)
}

/// Pairs that enable "create", circles and steps never enabled; the end
/// record decides about the last two.
fn bad_pairs(random: &mut Random) -> Vec<Vec<u8>> {
    let steps = random.some_below(15, 4);
    let step = |place: usize| steps[place] + 1;
    vec![
        vec![6, 0, 0, 0],
        vec![6, 15, 0, 0],
        vec![6, step(0), 0],
        vec![6, step(0), step(0), 0],
        vec![6, step(0), step(1), 6, step(1), step(0), 0],
        vec![
            6,
            step(0),
            step(1),
            6,
            step(1),
            step(2),
            6,
            step(2),
            step(3),
            6,
            step(3),
            step(0),
            0,
        ],
        vec![6, step(0), step(1), 6, step(2), step(2), 0],
        vec![6, step(0), step(1), 0],
        vec![6, 0, step(1), 6, step(0), step(1), 0],
        vec![6, step(2), step(1), 6, step(0), step(2), 0],
    ]
}

fn of_kind(random: &mut Random, records: &[Vec<u8>], kind: u8) -> Option<Vec<u8>> {
    let found: Vec<&Vec<u8>> = records.iter().filter(|r| r[0] == kind).collect();
    if found.is_empty() {
        None
    } else {
        Some(random.pick(&found).clone())
    }
}
