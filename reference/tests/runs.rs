//! Runs: answers due, the record that ends a run, and puts one after another.

mod common;

use common::{marked, with_mask, NO_RUN};
use reference::marked::REQUESTS;
use reference::{Buffers, Ran};

#[test]
fn number_18_too_few_answers() {
    let tables = marked();
    let with_cut = [&REQUESTS[..], &[16, 0]].concat();
    let with_unknown = [&REQUESTS[..], &[20], &REQUESTS[..]].concat();
    for (requests, due) in [(&REQUESTS[..], 10), (&with_cut, 11), (&with_unknown, 11)] {
        for length in 0..due {
            let mut lent = Buffers::filled(0xa5);
            let mut answers = vec![7; length];
            let ran = lent.run(&tables, requests, &mut answers);
            assert_eq!(
                ran,
                Ran {
                    number: 18,
                    ..NO_RUN
                }
            );
            assert_eq!(lent, Buffers::filled(0xa5));
            assert!(answers.iter().all(|byte| *byte == 7));
        }
        let mut answers = vec![7; due];
        assert_eq!(
            Buffers::blank(&tables)
                .run(&tables, requests, &mut answers)
                .number,
            0
        );
    }
}

#[test]
fn a_run_ends_at_the_first_unreadable_record() {
    let tables = with_mask(0);
    for bad in [&[20, 1, 1][..], &[0], &[255, 0, 0]] {
        let requests = [&[16, 0, 0][..], bad, &[17, 0, 0]].concat();
        let mut lent = Buffers::blank(&tables);
        let mut answers = [7; 5];
        let ran = lent.run(&tables, &requests, &mut answers);
        assert_eq!((ran.number, ran.granted, ran.refused), (0, 1, 1));
        assert_eq!(answers, [0, 12, 7, 7, 7]);
        let mut expected = Buffers::blank(&tables);
        expected.history[0] = 1;
        assert_eq!(lent, expected);
    }
}

#[test]
fn a_run_of_no_bytes() {
    let mut lent = Buffers::filled(0xa5);
    assert_eq!(lent.run(&marked(), &[], &mut []), NO_RUN);
    let mut answers = [7; 3];
    assert_eq!(lent.run(&marked(), &[], &mut answers), NO_RUN);
    assert_eq!(answers, [7; 3]);
    assert_eq!(lent, Buffers::filled(0xa5));
}

#[test]
fn a_run_is_the_puts_one_after_another() {
    let mut random = reference::random::Random::new(3);
    let tables = marked();
    let mut as_run = Buffers::blank(&tables);
    let mut as_puts = as_run.clone();
    for _ in 0..40 {
        let mut records: Vec<Vec<u8>> = Vec::new();
        for _ in 0..10 {
            let kind = random.between(16, 19) as u8;
            let mut record = vec![kind, random.below(2) as u8, random.below(3) as u8];
            if kind == 19 {
                record.push(random.below(3) as u8);
            }
            records.push(record);
        }
        let mut answers = [0; 10];
        let ran = as_run.run(&tables, &records.concat(), &mut answers);
        for (record, answer) in records.iter().zip(answers) {
            assert_eq!(as_puts.put(&tables, record), answer);
        }
        assert_eq!(as_run, as_puts);
        let zeros = answers.iter().filter(|answer| **answer == 0).count();
        assert_eq!((ran.granted, ran.refused), (zeros, 10 - zeros));
    }
}
