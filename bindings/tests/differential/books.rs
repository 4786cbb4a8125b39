//! Random rulebooks: good ones, damaged ones and noise.

use reference::random::Random;

/// Of a hundred bits by which levels are apart so many are of the rank.
const RANK_BITS: usize = 75;

/// A book: mostly a good one.
pub fn some_book(random: &mut Random) -> Vec<u8> {
    match random.below(100) {
        0..=59 => good_book(random),
        60..=92 => damaged(random),
        _ => (0..random.below(40))
            .map(|_| random.below(9) as u8)
            .collect(),
    }
}

/// A book that loads.
pub fn good_book(random: &mut Random) -> Vec<u8> {
    finished(good_records(random))
}

/// The records and the end record.
fn finished(records: Vec<Vec<u8>>) -> Vec<u8> {
    let mut book = records.concat();
    book.push(0);
    book
}

/// How many of so many: few, some or all.
fn some_count(random: &mut Random, limit: usize) -> usize {
    match random.below(8) {
        0 => 0,
        1 => limit,
        2..=3 => random.between(1, limit),
        _ => random.between(1, 6),
    }
}

/// The records of a book that loads, without its end.
fn good_records(random: &mut Random) -> Vec<Vec<u8>> {
    let any_mask = random.below(16) as u8;
    let mask = random.pick(&[15, 15, 15, any_mask]);
    let firm_count = some_count(random, 64);
    let firms = random.some_below(64, firm_count);
    let classes = random.between(1, 32);
    let mut records = Vec::new();
    for firm in &firms {
        records.push(vec![2, *firm, random.below(classes) as u8]);
    }
    let apart = random.below(3);
    let person_count = some_count(random, 64).max(1);
    for person in random.some_below(64, person_count) {
        records.push([vec![3, person], some_level(random, 0xffff, apart)].concat());
    }
    let role_count = random.pick(&[1, 1, 2, 4, 32]);
    for role in random.some_below(32, role_count) {
        records.push([vec![5, role], some_rights(random)].concat());
    }
    records.extend(good_pairs(random));
    random.shuffle(&mut records);
    if !firms.is_empty() {
        records.extend(some_folders(random, &firms, apart));
    }
    records.insert(0, vec![1, mask]);
    records
}

/// Folders, some of them public: each mark right after its folder or at the
/// end.
fn some_folders(random: &mut Random, firms: &[u8], apart: usize) -> Vec<Vec<u8>> {
    let (mut records, mut marks) = (Vec::new(), Vec::new());
    let public = random.pick(&[0, 20, 40, 60]);
    let folder_count = some_count(random, 128).max(1);
    for folder in random.some_below(128, folder_count) {
        let kind = random.below(16) as u8;
        let head = vec![4, folder, random.pick(firms), kind];
        records.push([head, some_level(random, 0x7fff, apart)].concat());
        if random.chance(public) {
            let later = random.chance(50);
            let place = if later { &mut marks } else { &mut records };
            place.push(vec![7, folder]);
        }
    }
    random.shuffle(&mut marks);
    [records, marks].concat()
}

/// A level below the most, with many compartments: the levels of a book are
/// apart by few bits or none, so that the other rules are asked too.
fn some_level(random: &mut Random, most: u16, apart: usize) -> Vec<u8> {
    let mut level = most;
    for _ in 0..random.below(apart + 1) {
        level &= !(1 << some_bit(random));
    }
    level.to_le_bytes().to_vec()
}

/// A bit of a level: of the rank more often than of a compartment, so that
/// low-water refuses for either about as often.
pub fn some_bit(random: &mut Random) -> usize {
    if random.chance(RANK_BITS) {
        random.between(12, 15)
    } else {
        random.below(12)
    }
}

/// Most of the rights.
fn some_rights(random: &mut Random) -> Vec<u8> {
    let rights = random.number() | random.number() | random.number();
    let some = random.number();
    let more = random.pick(&[0, some, u64::MAX]);
    (rights | more).to_le_bytes().to_vec()
}

/// Pairs that only lead upwards, each from step 0 or a step reached.
fn good_pairs(random: &mut Random) -> Vec<Vec<u8>> {
    let mut reached = vec![0];
    let mut pairs = Vec::new();
    for step in 1..random.between(1, 16) as u8 {
        for _ in 0..random.between(1, 2) {
            let pair = vec![6, random.pick(&reached), step];
            if !pairs.contains(&pair) {
                pairs.push(pair);
            }
        }
        reached.push(step);
    }
    pairs
}

/// The mark of a declared folder or of any number, once or twice.
fn some_marks(random: &mut Random, records: &[Vec<u8>]) -> Vec<Vec<u8>> {
    let folders = records.iter().filter(|record| record[0] == 4);
    let declared: Vec<u8> = folders.map(|record| record[1]).collect();
    let folder = if declared.is_empty() || random.chance(50) {
        random.byte()
    } else {
        random.pick(&declared)
    };
    vec![vec![7, folder]; random.between(1, 2)]
}

/// A good book with one thing wrong, most of the time.
fn damaged(random: &mut Random) -> Vec<u8> {
    let mut records = good_records(random);
    let at = random.below(records.len());
    match random.below(12) {
        0 => records.push(records[at].clone()),
        1 => records.push(vec![6, random.below(16) as u8, random.below(16) as u8]),
        2 => records.push(vec![
            4,
            random.byte(),
            random.byte(),
            random.below(20) as u8,
            0,
            0,
        ]),
        3 => {
            records.remove(at);
        }
        4 => records.insert(at, vec![random.byte()]),
        5 => records.insert(at, vec![0]),
        6 => {
            let place = random.below(records[at].len());
            records[at][place] = random.byte();
        }
        7 => records.push(vec![6, 15, random.between(1, 14) as u8]),
        8 => {
            let mut book = finished(records);
            book.truncate(random.below(book.len()));
            return book;
        }
        9 => records.extend(some_marks(random, &records)),
        10 => random.shuffle(&mut records[1..]),
        _ => random.shuffle(&mut records),
    }
    let mut book = finished(records);
    book.extend((0..random.below(8)).map(|_| random.byte()));
    book
}
