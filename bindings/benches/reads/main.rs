//! The timed test of a level's part of the reads: with sixteen zero bytes it
//! takes at most half the time that it takes with one bit in each byte. With one
//! bit in two of the bytes, one in each half, it does too, which it would not
//! if it looked at every folder of a half that is not zero. The part is called
//! alone: nothing is loaded, no step is looked at, and the tables are lent as
//! they are packed. Prints what it measured; the exit status is not 0 if a
//! level is wrong or one of the times is above a half.

mod plain;

use reference::history::set_of;
use reference::random::Random;
use reference::rules::current_level;
use reference::{Level, Tables};
use std::hint::black_box;
use std::process::ExitCode;
use std::time::Instant;

/// The tables as the proved code takes them (crate `packed`). Here only the
/// folders, at 0 to 127, are filled.
pub type Words = [u64; 307];

/// How a level is worked out from a person's reads, from the level before them.
type Part = fn(&Words, &[u8], usize, u16) -> u16;

const HISTORY_BYTES: usize = 18_944;
const PERSON: usize = 41;

/// So many calls are one measurement, and each input has one in every round, in
/// turns. The quickest counts: other work on the machine makes some slower and
/// none quicker.
const CALLS: usize = 2_000;
const ROUNDS: usize = 1_000;

/// The sixteen bytes of reads that are timed.
const INPUTS: [&str; 4] = [
    "sixteen zero bytes",
    "one bit in two bytes",
    "one bit in each byte",
    "every bit",
];

/// The share of the time of one bit in each byte that the inputs before it may
/// take.
const MOST: f64 = 0.5;

#[link(name = "timed", kind = "static")]
extern "C" {
    fn timed_level_by_reads(
        tables: *const Words,
        history: *const u8,
        history_length: usize,
        person: usize,
        before: u16,
    ) -> u16;
}

fn proved(tables: &Words, history: &[u8], person: usize, before: u16) -> u16 {
    // SAFETY: the pointers and the length are those of live borrows. The
    // function keeps no pointer, writes nothing and has no `requires`.
    unsafe { timed_level_by_reads(tables, history.as_ptr(), history.len(), person, before) }
}

/// Tables with random levels and every folder or some folders declared.
fn some_tables(random: &mut Random, every: bool) -> Tables {
    let mut tables = Tables::empty_book();
    for folder in &mut tables.folders {
        let level = !(1 << random.below(16) | 1 << random.below(16));
        folder.declared = every || random.chance(70);
        folder.level = Level::from_number(level);
        folder.firm = random.below(64) as u8;
        folder.kind = random.below(16) as u8;
        folder.public = random.chance(20);
    }
    tables
}

fn packed(tables: &Tables) -> Words {
    let mut words = [0; 307];
    for (word, folder) in words.iter_mut().zip(&tables.folders) {
        *word = u64::from(folder.declared)
            | u64::from(folder.firm) << 8
            | u64::from(folder.kind) << 16
            | u64::from(folder.level.number()) << 24
            | u64::from(folder.public) << 40;
    }
    words
}

/// A history in which a person's sixteen bytes of reads are these.
fn history_of(person: usize, reads: [u8; 16]) -> Vec<u8> {
    let mut history = vec![0; HISTORY_BYTES];
    history[16 * person..16 * person + 16].copy_from_slice(&reads);
    history
}

/// Compares the levels of each part with the reference, over reads of every
/// density, other persons' bytes random; and shows that what names no person's
/// bytes is refused.
fn check_levels(parts: &[Part]) {
    for seed in 0..4_000 {
        let mut random = Random::new(seed);
        let mut tables = some_tables(&mut random, false);
        let (person, before) = (random.below(64), random.number() as u16);
        tables.persons[person].declared = true;
        tables.persons[person].level = Level::from_number(before);
        let (bytes, density) = (random.below(101), random.below(101));
        let mut reads = [0; 16];
        for byte in &mut reads {
            if random.chance(bytes) {
                *byte = (0..8).fold(0, |all, bit| all | u8::from(random.chance(density)) << bit);
            }
        }
        let alone = history_of(person, reads);
        let expected = current_level(&tables, &set_of(&alone), person as u8).number();
        let mut history = alone;
        for (place, byte) in history[..1_024].iter_mut().enumerate() {
            if place / 16 != person {
                *byte = random.byte();
            }
        }
        for part in parts {
            assert_eq!(part(&packed(&tables), &history, person, before), expected);
        }
    }
    let (full, words) = (vec![255; HISTORY_BYTES + 1], [1; 307]);
    assert_eq!(proved(&words, &full[1..], 63, 0x2003), 0);
    assert_eq!(proved(&words, &full[1..], 64, 0x2003), 0x2003);
    assert_eq!(proved(&words, &full, 63, 0x2003), 0x2003);
    assert_eq!(proved(&words, &full[2..], 63, 0x2003), 0x2003);
}

/// The nanoseconds of a call of each part on each history: the quickest
/// measurement of each.
fn timed<const PARTS: usize, const INPUTS: usize>(
    parts: &[Part; PARTS],
    tables: &Words,
    histories: &[Vec<u8>; INPUTS],
) -> [[f64; INPUTS]; PARTS] {
    let mut quickest = [[f64::MAX; INPUTS]; PARTS];
    for _ in 0..ROUNDS {
        for (part, least) in parts.iter().zip(&mut quickest) {
            for (history, least) in histories.iter().zip(least) {
                let start = Instant::now();
                for _ in 0..CALLS {
                    black_box(part(black_box(tables), black_box(history), PERSON, 65_535));
                }
                *least = least.min(start.elapsed().as_nanos() as f64 / CALLS as f64);
            }
        }
    }
    quickest
}

fn main() -> ExitCode {
    let parts: [Part; 3] = [proved, plain::by_words, plain::by_folders];
    check_levels(&parts);
    let mut random = Random::new(1);
    let tables = packed(&some_tables(&mut random, true));
    let one_each = [0; 16].map(|_: u8| 1 << random.below(8));
    let mut one_in_two = [0; 16];
    one_in_two[5] = one_each[5];
    one_in_two[12] = one_each[12];
    let reads = [[0; 16], one_in_two, one_each, [255; 16]];
    let histories = reads.map(|reads| history_of(PERSON, reads));
    let [proved, plain, walk] = timed(&parts, &tables, &histories);
    println!("| reads | proved, ns | plain Rust, ns | ratio | every folder, plain Rust, ns |");
    println!("|---|---|---|---|---|");
    for (k, name) in INPUTS.iter().enumerate() {
        let (ours, theirs, walk) = (proved[k], plain[k], walk[k]);
        let ratio = ours / theirs;
        println!("| {name} | {ours:.2} | {theirs:.2} | {ratio:.2} | {walk:.2} |");
    }
    let mut code = ExitCode::SUCCESS;
    for k in 0..2 {
        let (share, of_walk) = (proved[k] / proved[2], walk[k] / walk[2]);
        println!(
            "{}: {share:.3} of the time of {}; {MOST} is allowed (a walk over every folder: {of_walk:.3})",
            INPUTS[k], INPUTS[2]
        );
        if share > MOST {
            eprintln!("this takes too long");
            code = ExitCode::FAILURE;
        }
    }
    code
}
