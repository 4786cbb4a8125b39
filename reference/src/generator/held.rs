//! Scenes of levels held ready: stored levels that the history does not give,
//! levels lowered where low-water is not in force, and blank over old levels.

use super::plans::Plan;
use super::Generator;
use crate::calls::answers_due;
use crate::level::Level;
use crate::levels::{levels_by_history, Levels};
use crate::play::LEVEL_BUFFER;
use crate::request::Request;

/// Kinds of requests in which low-water asks for a level, and reads.
const BY_LEVEL: &[u8] = &[16, 17, 17, 18, 18, 19, 19];

/// Kinds of requests that lower.
const LOWERING: &[u8] = &[16, 19];

/// Masks in which low-water is not in force.
const WITHOUT_LOW_WATER: [u8; 8] = [0, 1, 4, 5, 8, 9, 12, 13];

impl Generator {
    pub fn levels_held(&mut self) {
        self.order_of_checks();
        for mask in 0..16 {
            let plan = Plan::many_levels(&mut self.random, mask);
            self.levels_not_of_the_history(&plan);
        }
        for mask in [2, 3, 6, 7, 10, 11, 14, 15] {
            let plan = Plan::many_levels(&mut self.random, mask);
            self.levels_not_of_the_history(&plan);
            let plan = Plan::many_levels(&mut self.random, mask);
            self.levels_of_another_book(&plan);
        }
        for mask in [2, 0, 15, 2] {
            let plan = Plan::many_levels(&mut self.random, mask);
            self.starts_by_either_level(&plan);
            let plan = Plan::small(&mut self.random, mask);
            self.blank_over_old_levels(&plan);
        }
        for mask in [3, 6, 7, 3, 6, 7] {
            let plan = Plan::narrow_roles(&mut self.random, mask);
            self.refused_reads(&Plan {
                classes: 1,
                persons: 3,
                ..plan
            });
        }
        for mask in WITHOUT_LOW_WATER {
            let plan = Plan::many_levels(&mut self.random, mask);
            self.lowered_without_low_water(&plan);
        }
    }

    /// Stores a level; bytes that are right already are left.
    pub fn store_level(&mut self, person: u8, level: Level) {
        let at = 2 * usize::from(person);
        for (place, byte) in level.number().to_le_bytes().into_iter().enumerate() {
            if self.player.levels[at + place] != byte {
                self.level_byte(at + place, byte);
            }
        }
    }

    /// Stores the levels that the history gives, for the undeclared too.
    pub fn store_levels_of_history(&mut self) {
        let history = self.state_now().history;
        let levels: Levels = levels_by_history(&self.player.tables, &history);
        for (person, level) in levels.into_iter().enumerate() {
            self.store_level(person as u8, level);
        }
    }

    /// The level of a folder or of a person, the highest without some bit, or
    /// the stored one with some bit changed.
    fn some_level(&mut self, person: u8) -> Level {
        let stored = self.state_now().levels[usize::from(person) % 64];
        let folders = self.declared_folders();
        match self.random.below(10) {
            0..=1 => Level::from_number(65_535 ^ (1 << self.random.below(16))),
            2 => self.player.tables.persons[self.random.below(64)].level,
            3..=5 if !folders.is_empty() => {
                let folder = self.random.pick(&folders);
                self.player.tables.folder(folder).level
            }
            _ => Level::from_number(stored.number() ^ (1 << self.random.below(16))),
        }
    }

    /// Stores another level for some persons: mostly declared ones. Now and
    /// then any byte of the buffer is set, also past the levels, or past the
    /// buffer: taken modulo.
    pub fn store_other_levels(&mut self, count: usize) {
        for _ in 0..count {
            let person = self.some_person() % 64;
            let level = self.some_level(person);
            self.store_level(person, level);
            if self.random.chance(10) {
                let (at, value) = (self.random.byte(), self.random.byte());
                self.level_byte(usize::from(at), value);
            }
        }
    }

    /// Stores another level for nearly every declared person.
    pub fn store_others_for_declared(&mut self) {
        for person in self.declared_persons() {
            if self.random.chance(90) {
                let level = self.some_level(person);
                self.store_level(person, level);
            }
        }
    }

    /// Levels stored after a list, and calls that look at them: puts with the
    /// level after each, judged requests and a run.
    fn levels_not_of_the_history(&mut self, plan: &Plan) {
        self.begin(plan);
        for record in self.list_of(LOWERING, 3) {
            self.put(&record);
        }
        self.store_others_for_declared();
        self.store_other_levels(2);
        self.look_at_stored_levels(13);
    }

    /// The history and the levels of one book, and then a book of the same
    /// parties with other levels.
    fn levels_of_another_book(&mut self, plan: &Plan) {
        self.begin(plan);
        for record in self.list_of(LOWERING, 3) {
            self.put(&record);
        }
        let mut other = self.player.tables.clone();
        for person in self.declared_persons() {
            other.persons[usize::from(person)].level = self.some_level(person);
        }
        for folder in self.declared_folders() {
            if self.random.chance(30) {
                let person = self.some_person() % 64;
                other.folders[usize::from(folder)].level = self.some_level(person);
            }
        }
        self.load(&other.as_book());
        self.look_at_stored_levels(13);
    }

    fn look_at_stored_levels(&mut self, count: usize) {
        self.standings_of_declared();
        for record in self.list_of(BY_LEVEL, count) {
            self.judge(&record);
        }
        for record in self.list_of(BY_LEVEL, count) {
            self.put(&record);
            self.standing(record[1]);
        }
        let requests = self.list_of(BY_LEVEL, count).concat();
        self.run(answers_due(&requests), &requests);
        // Too few answers: 18, and nobody is lowered.
        let requests = self.list_of(LOWERING, 3).concat();
        self.run(2, &requests);
        self.standings_of_declared();
    }

    /// Everybody starts everybody, with the level of one person after another
    /// changed: first as the one who starts, then as the one who is started.
    fn starts_by_either_level(&mut self, plan: &Plan) {
        self.begin(plan);
        let persons = self.declared_persons();
        for person in persons.clone() {
            let level = self.some_level(person);
            self.store_level(person, level);
            for other in persons.clone() {
                self.judge(&Request::Start { person, other }.as_record());
                let (person, other) = (other, person);
                self.judge(&Request::Start { person, other }.as_record());
            }
        }
        let record = [18, self.random.pick(&persons), self.random.pick(&persons)];
        self.put(&record);
        self.standings_of_declared();
    }

    /// Old levels of anybody, and then blank. Persons who are declared after it
    /// have the lowest level, whatever stood there before.
    fn blank_over_old_levels(&mut self, plan: &Plan) {
        self.begin(plan);
        for at in self.random.some_below(LEVEL_BUFFER, 50) {
            let value = self.random.byte();
            self.level_byte(usize::from(at), value);
        }
        let old = self.state_now().levels;
        let undeclared: Vec<u8> = (0..64)
            .filter(|person| !self.player.tables.person_declared(*person))
            .filter(|person| old[usize::from(*person)] != Level::lowest())
            .collect();
        self.blank();
        self.standings_of_declared();
        for person in undeclared.into_iter().take(4) {
            self.standing(person);
            self.field(3, person, 1);
            self.standing(person);
            let other = self.some_person();
            self.judge(&Request::Start { person, other }.as_record());
            self.judge(
                &Request::Start {
                    person: other,
                    other: person,
                }
                .as_record(),
            );
            let folder = self.some_folder();
            self.judge(&Request::Write { person, folder }.as_record());
            self.field(3, person, 0);
        }
    }

    /// Reads that the wall or the roles refuse lower nobody: standing shows it,
    /// and writes and starts after them.
    fn refused_reads(&mut self, plan: &Plan) {
        self.begin(plan);
        self.store_others_for_declared();
        for _ in 0..14 {
            let (person, folder) = (self.some_person(), self.some_folder());
            self.put(&Request::Read { person, folder }.as_record());
            self.standing(person);
            let folder = self.some_folder();
            self.judge(&Request::Write { person, folder }.as_record());
            let other = self.some_person();
            self.judge(&Request::Start { person, other }.as_record());
        }
        let requests = self.list_of(&[16, 16, 17, 18], 12).concat();
        self.run(answers_due(&requests), &requests);
    }

    /// Reads and steps lower although low-water is not in force: standing
    /// shows it, and low-water refuses by it later.
    fn lowered_without_low_water(&mut self, plan: &Plan) {
        self.begin(plan);
        for record in self.list_of(LOWERING, 8) {
            self.put(&record);
            self.standing(record[1]);
        }
        let requests = self.list_of(LOWERING, 6).concat();
        self.run(answers_due(&requests), &requests);
        self.standings_of_declared();
        self.field(0, 0, u64::from(plan.mask) + 2);
        for record in self.list_of(BY_LEVEL, 8) {
            self.judge(&record);
        }
    }
}
