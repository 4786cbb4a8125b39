//! The scenes that make up a file of calls, and those of books and lists.

use super::books::{bad_ends, good_records, joined, with_early_mark};
use super::plans::Plan;
use super::Generator;
use crate::calls::answers_due;
use crate::marked;

impl Generator {
    pub fn all_scenes(&mut self) {
        self.before_any_book();
        self.marked_cases();
        self.refused_books();
        self.cut_and_changed_books(&marked::BOOK);
        self.cut_and_changed_books(&marked::PUBLIC_BOOK);
        self.lists_from_blank();
        self.steps_that_alter();
        self.every_kind();
        self.other_histories_and_tables();
        for _ in 0..2 {
            self.wrong_lengths();
            self.too_few_answers();
        }
        self.long_runs();
        self.few_stretches();
        self.levels_held();
        self.orders_for_jobs();
    }

    /// Lists of calls from blank, under every mask and in books of every size.
    fn lists_from_blank(&mut self) {
        for mask in 0..16 {
            for _ in 0..2 {
                let plan = Plan::small(&mut self.random, mask);
                self.list_scene(&plan, 40, 4);
            }
            let plan = Plan::middle(&mut self.random, mask);
            self.list_scene(&plan, 60, 6);
        }
        for _ in 0..12 {
            let plan = Plan::middle(&mut self.random, 15);
            self.list_scene(&plan, 150, 10);
        }
        for mask in [15, 15, 7, 11, 13, 14] {
            self.list_scene(&Plan::full(mask), 120, 12);
        }
        for mask in [4, 4, 12, 12, 5, 6] {
            let plan = Plan::narrow_roles(&mut self.random, mask);
            self.list_scene(&plan, 50, 5);
        }
    }

    /// Persons lowered by steps alone, in lists and in other histories.
    fn steps_that_alter(&mut self) {
        self.lists_without_reads();
        self.everybody_steps();
        for mask in [0, 2, 3, 5, 10, 15] {
            let plan = Plan::many_levels(&mut self.random, mask);
            self.foreign_steps(&plan);
        }
    }

    /// Histories that no list leaves, and tables changed field by field.
    fn other_histories_and_tables(&mut self) {
        for mask in 0..16 {
            let plan = Plan::small(&mut self.random, mask);
            self.foreign_history(&plan, 50);
        }
        for mask in [15, 15, 1, 2, 4, 8] {
            let plan = Plan::middle(&mut self.random, mask);
            self.foreign_history(&plan, 160);
        }
        for mask in [0, 15, 15, 8] {
            let plan = Plan::small(&mut self.random, mask);
            self.changed_tables(&plan, 130);
        }
        for mask in [1, 1, 3, 5, 15] {
            let plan = Plan::small(&mut self.random, mask);
            self.changed_marks(&plan);
        }
        for _ in 0..8 {
            let plan = Plan::small(&mut self.random, 15);
            self.undeclared_later(&plan);
        }
    }

    pub fn standings_of_everyone(&mut self) {
        for person in 0..64 {
            self.standing(person);
        }
        self.standing(64);
        self.standing(255);
    }

    pub fn standings_of_declared(&mut self) {
        for person in self.declared_persons() {
            self.standing(person);
        }
        let other = self.random.byte();
        self.standing(other);
    }

    /// Calls with the tables of the empty book.
    fn before_any_book(&mut self) {
        self.blank();
        for record in [&[16, 0, 0][..], &[18, 0, 0], &[19, 0, 0, 0], &[], &[9]] {
            self.judge(record);
            self.put(record);
        }
        self.run(0, &[]);
        self.run(3, &[16, 0, 0, 17, 0, 0]);
        self.standing(0);
        self.load(&[1, 0, 0]);
        self.standing(0);
    }

    /// P1 to P10.
    fn marked_cases(&mut self) {
        self.load(&marked::BOOK);
        self.blank();
        self.fill(99);
        self.run(10, &marked::REQUESTS);
        self.standings_of_everyone();
        self.blank();
        let mut left = &marked::REQUESTS[..];
        while !left.is_empty() {
            self.judge(left);
            self.put(left);
            left = &left[if left[0] == 19 { 4 } else { 3 }..];
        }
        self.standings_of_declared();
        for book in [
            &[][..],
            &[0],
            &[1, 15, 6, 3, 4, 0],
            &[1, 15, 6, 0, 0, 0],
            &[1, 15, 0],
            &[1, 16, 0],
        ] {
            self.load(book);
        }
        self.marked_levels();
        self.marked_wall();
        self.load(&marked::book_with_rights([3, 0, 3, 0, 1, 0, 3, 0]));
        self.blank();
        self.put(&[19, 1, 2, 2]);
        self.judge(&[19, 1, 2, 2]);
        self.public_folder();
        self.altering_step();
        self.rank_or_compartment();
    }

    /// P7 and P8, and the order of levels that have no order.
    fn marked_levels(&mut self) {
        self.load(&[
            1, 2, 2, 0, 0, 3, 0, 0x03, 0x10, 3, 1, 0x00, 0x10, 3, 2, 0x01, 0x10, 3, 3, 0x00, 0x20,
            4, 0, 0, 0, 0x01, 0x10, 4, 1, 0, 0, 0x02, 0x10, 4, 2, 0, 0, 0x00, 0x10, 0,
        ]);
        self.blank();
        let starts_and_writes = [
            [18, 1, 0],
            [18, 2, 0],
            [18, 3, 0],
            [18, 0, 3],
            [18, 3, 2],
            [17, 0, 0],
            [17, 3, 0],
            [17, 0, 2],
            [17, 2, 1],
        ];
        for read in [[16, 0, 0], [16, 0, 1], [16, 0, 0]] {
            for record in &starts_and_writes {
                self.judge(record);
            }
            self.put(&read);
            self.standing(0);
        }
        for record in &starts_and_writes {
            self.put(record);
        }
    }

    /// P9: one person has two rival firms already.
    fn marked_wall(&mut self) {
        self.load(&[
            1, 1, 2, 0, 5, 2, 1, 5, 2, 2, 5, 3, 0, 0, 0, 3, 1, 0, 0, 4, 0, 0, 0, 0, 0, 4, 1, 1, 0,
            0, 0, 4, 2, 2, 0, 0, 0, 0,
        ]);
        self.blank();
        self.byte(0, 3);
        for folder in 0..3 {
            for person in 0..2 {
                self.judge(&[16, person, folder]);
                self.judge(&[17, person, folder]);
                self.judge(&[19, person, 7, folder]);
            }
        }
        self.put(&[17, 0, 1]);
        self.put(&[17, 0, 2]);
        self.standings_of_declared();
    }

    /// Each loading refusal after more and more good records.
    fn refused_books(&mut self) {
        for book in [
            &[2][..],
            &[2, 0, 0, 1, 15, 0],
            &[3, 0, 0, 0],
            &[4, 0, 0, 0, 0, 0],
            &[5],
            &[6, 0, 1],
            &[7],
            &[7, 0, 1, 15, 0],
            &[8],
            &[255, 1, 1],
            &[1],
            &[1, 16],
            &[1, 255, 7],
            &[1, 0, 1],
            &[1, 0, 1, 0, 0],
            &[0, 1, 0, 0],
        ] {
            self.load(book);
        }
        for step in 0..7 {
            let mask = self.random.below(16) as u8;
            let plan = Plan::small(&mut self.random, mask);
            let mut records = good_records(&mut self.random, &plan);
            if let Some(early) = with_early_mark(&mut self.random, &records) {
                let mut book = joined(&early);
                book.push(0);
                self.load(&book);
            }
            let kept = (1 + step * records.len() / 6).min(records.len());
            records.truncate(kept);
            for end in bad_ends(&mut self.random, &records) {
                let mut book = joined(&records);
                book.extend(end);
                self.load(&book);
            }
        }
    }

    /// A marked book cut at every length, and with each byte changed.
    fn cut_and_changed_books(&mut self, whole: &[u8]) {
        for length in 0..whole.len() {
            self.load(&whole[..length]);
        }
        for place in 0..whole.len() {
            for change in 0..3 {
                let mut book = whole.to_vec();
                book[place] = match change {
                    0 => self.random.byte(),
                    1 => self.random.below(9) as u8,
                    _ => book[place] ^ (1 << self.random.below(8)),
                };
                self.load(&book);
            }
        }
    }

    /// Every kind byte in front of a request, and every length of a record.
    fn every_kind(&mut self) {
        self.load(&marked::BOOK);
        self.blank();
        for kind in 0..=255 {
            self.judge(&[kind, 1, 0, 2]);
        }
        for kind in 15..=20 {
            for length in 0..=5 {
                self.put(&[kind, 1, 1, 2, 0][..length]);
            }
        }
    }

    /// One book, then puts, judges and runs from blank, and standings. In some
    /// of the scenes other levels are stored before the puts and before each
    /// run.
    fn list_scene(&mut self, plan: &Plan, puts: usize, runs: usize) {
        self.begin(plan);
        let other_levels = self.next_has_other_levels();
        if other_levels {
            self.store_others_for_declared();
        }
        for record in self.some_list(puts) {
            let record = self.with_oddities(record);
            if self.random.chance(25) {
                self.judge(&record);
            }
            self.put(&record);
        }
        self.standings_of_declared();
        if other_levels {
            self.store_others_for_declared();
        }
        for _ in 0..runs {
            if other_levels {
                self.store_other_levels(2);
            }
            let count = self.random.between(1, 36);
            self.some_run(count);
        }
        for record in self.some_list(puts / 2) {
            let record = self.with_oddities(record);
            self.judge(&record);
        }
        if plan.persons == 64 {
            self.standings_of_everyone();
        } else {
            self.standings_of_declared();
        }
    }

    /// A run with an unreadable record in it now and then, and sometimes
    /// more answer bytes than are due.
    pub fn some_run(&mut self, count: usize) {
        let mut requests = self.some_list(count).concat();
        if self.random.chance(25) {
            let cut = self.unreadable();
            requests.extend(cut);
            if self.random.chance(50) {
                requests.extend(self.some_list(3).concat());
            }
        }
        if self.random.chance(30) {
            let value = self.random.byte();
            self.fill(value);
        }
        let spare = self.random.pick(&[0, 0, 1, 7, 4096]);
        self.run(answers_due(&requests) + spare, &requests);
    }
}
