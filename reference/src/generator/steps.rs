//! Scenes of steps that alter: persons lowered by steps, and by them alone.

use super::plans::Plan;
use super::Generator;
use crate::calls::answers_due;
use crate::history::index;
use crate::marked;
use crate::request::Request;

/// Kinds of requests without reads, so that steps alone lower.
const NO_READS: &[u8] = &[17, 17, 17, 18, 18, 19, 19, 19];

impl Generator {
    /// A step that lowers, and the lower level under every mask: where
    /// low-water is not in force, standing still gives it.
    pub fn altering_step(&mut self) {
        self.load(&marked::STEP_BOOK);
        self.blank();
        self.run(4, &marked::STEP_REQUESTS);
        for step in [5, 0] {
            self.blank();
            for record in [
                &[19, 0, step, 1][..],
                &[17, 0, 0],
                &[19, 0, 3, 2],
                &[17, 0, 1],
            ] {
                self.judge(record);
                self.put(record);
                self.standing(0);
            }
            for mask in 0..16 {
                self.field(0, 0, mask);
                self.standing(0);
                self.judge(&[17, 0, 0]);
                self.judge(&[19, 0, 0, 0]);
            }
            self.field(0, 0, 2);
        }
    }

    /// Lists without reads under every mask, and longer ones under low-water.
    pub fn lists_without_reads(&mut self) {
        for mask in 0..16 {
            let plan = Plan::many_levels(&mut self.random, mask);
            self.list_without_reads(&plan, 16);
        }
        for mask in [2, 3, 6, 7, 10, 11, 14, 15] {
            let plan = Plan::many_levels(&mut self.random, mask);
            self.list_without_reads(&plan, 40);
        }
    }

    /// Puts, with the level after each step, judged requests and a run. In some
    /// scenes other levels are stored first.
    fn list_without_reads(&mut self, plan: &Plan, count: usize) {
        self.begin(plan);
        if self.next_has_other_levels() {
            self.store_others_for_declared();
        }
        for record in self.list_of(NO_READS, count) {
            self.put(&record);
            if record[0] == 19 {
                self.standing(record[1]);
            }
        }
        for record in self.list_of(NO_READS, count / 2) {
            self.judge(&record);
        }
        let requests = self.list_of(NO_READS, count).concat();
        self.run(answers_due(&requests), &requests);
        self.standings_of_declared();
    }

    /// Every person steps on two folders of 128, with each step eight times:
    /// the level of each person tells which folders these were, first where
    /// low-water is not in force and then by what it refuses; and once more on
    /// other levels.
    pub fn everybody_steps(&mut self) {
        let book = self.book_of_levels();
        self.load(&book);
        self.blank();
        let folders = self.random.some_below(128, 128);
        let others = self.random.some_below(128, 128);
        let (mut steps, mut writes, mut starts) = (Vec::new(), Vec::new(), Vec::new());
        for place in 0..128 {
            let (person, step) = ((place % 64) as u8, others[place] % 16);
            steps.extend([19, person, step, folders[place]]);
            writes.extend([17, person, others[place]]);
            starts.extend([18, person, folders[place] / 2]);
        }
        self.run(128, &steps);
        self.standings_of_everyone();
        self.field(0, 0, 2);
        for requests in [&writes, &starts, &steps] {
            self.run(128, requests);
        }
        self.store_others_for_declared();
        for requests in [&writes, &starts, &steps] {
            self.run(128, requests);
        }
    }

    /// No rule, all persons at the highest level and all folders at any.
    pub fn book_of_levels(&mut self) -> Vec<u8> {
        let mut book = vec![1, 0, 2, 0, 0];
        for person in 0..64 {
            book.extend([3, person, 255, 255]);
        }
        for folder in 0..128 {
            book.extend([4, folder, 0, 0, self.random.byte(), self.random.byte()]);
        }
        book.push(0);
        book
    }

    /// Histories that no list leaves: first everybody stepped on undeclared
    /// folders, which lower nothing, then some on declared ones; at the end the
    /// levels stored are those that the history gives.
    pub fn foreign_steps(&mut self, plan: &Plan) {
        self.begin(plan);
        let declared = self.declared_folders();
        for folder in self.random.some_below(128, 12) {
            if !declared.contains(&folder) {
                self.bits_of_step(folder, |_| 255);
            }
        }
        self.look_at_levels();
        for _ in 0..3 {
            let folder = self.random.pick(&declared);
            self.bits_of_step(folder, |generator| generator.random.byte());
            self.look_at_levels();
        }
        self.store_levels_of_history();
        self.look_at_levels();
    }

    /// Sets the 8 bytes of some step on a folder, a bit for each person.
    fn bits_of_step(&mut self, folder: u8, value: impl Fn(&mut Generator) -> u8) {
        let step = self.random.below(16) as u8;
        let first = index(&Request::Step {
            person: 0,
            step,
            folder,
        });
        for place in 0..8 {
            let value = value(self);
            self.byte(first / 8 + place, value);
        }
    }

    /// Standings, and requests that low-water judges.
    fn look_at_levels(&mut self) {
        self.standings_of_declared();
        for record in self.list_of(NO_READS, 8) {
            self.judge(&record);
        }
    }
}
