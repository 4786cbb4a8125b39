//! Scenes of histories that no list leaves and of tables with fields changed.

use super::books::good_book;
use super::plans::Plan;
use super::Generator;
use crate::calls::answers_due;
use crate::fields::field;
use crate::history::{index, HISTORY_BYTES};
use crate::places::{number, places};
use crate::play::HISTORY_BUFFER;
use crate::request::Request;
use crate::tables::given;

impl Generator {
    /// A history with bytes set at random, which no list leaves. In some of the
    /// scenes the levels stored are those that it gives.
    pub fn foreign_history(&mut self, plan: &Plan, bytes: usize) {
        self.begin(plan);
        for _ in 0..bytes {
            self.foreign_byte();
        }
        if !self.next_has_other_levels() {
            self.store_levels_of_history();
        }
        self.standings_of_declared();
        for _ in 0..bytes {
            let request = self.some_request();
            self.judge(&request.as_record());
        }
        for record in self.some_list(bytes / 2) {
            self.put(&record);
        }
        for _ in 0..3 {
            self.some_run(20);
        }
        self.standings_of_everyone();
    }

    /// Mostly one more bit of some possible request, of undeclared parties
    /// too; else any value anywhere, also past the history.
    pub fn foreign_byte(&mut self) {
        match self.random.below(20) {
            0 => {
                let at = self.random.below(HISTORY_BUFFER);
                let value = self.random.byte();
                self.byte(at, value);
            }
            1 => {
                // Past the history, or past the buffer: taken modulo.
                let at = self.random.between(HISTORY_BYTES, HISTORY_BUFFER + 2000);
                let value = self.random.byte();
                self.byte(at, value);
            }
            _ => {
                let place = index(&self.possible_request());
                let mut bits = places::<8>(u64::from(self.player.history[place / 8]));
                bits[place % 8] = true;
                self.byte(place / 8, number(&bits) as u8);
            }
        }
    }

    /// A request that has a bit, of declared parties or others.
    fn possible_request(&mut self) -> Request {
        loop {
            let request = if self.random.chance(80) {
                self.some_request()
            } else {
                self.any_possible_request()
            };
            let (person, folder) = (request.person(), request.folder_accessed());
            let other_in_range = match request {
                Request::Start { other, .. } => other < 64,
                _ => true,
            };
            let in_range = person < 64 && folder.unwrap_or(0) < 128 && request.step_in_range();
            if in_range && other_in_range {
                return request;
            }
        }
    }

    /// One party may be declared, the other need not be.
    fn any_possible_request(&mut self) -> Request {
        let person = if self.random.chance(50) {
            self.some_person()
        } else {
            self.random.below(64) as u8
        };
        let other = self.random.below(64) as u8;
        let folder = if self.random.chance(50) {
            self.some_folder()
        } else {
            self.random.below(128) as u8
        };
        let step = self.random.below(16) as u8;
        match self.random.below(4) {
            0 => Request::Read { person, folder },
            1 => Request::Write { person, folder },
            2 => Request::Start { person, other },
            _ => Request::Step {
                person,
                step,
                folder,
            },
        }
    }

    /// One field changed at a time, some calls, and the field set back.
    pub fn changed_tables(&mut self, plan: &Plan, changes: usize) {
        self.begin(plan);
        for record in self.some_list(30) {
            self.put(&record);
        }
        for place in 0..changes {
            let which = (place % 13) as u8;
            let index = self.some_index(which);
            let value = self.some_value(which, index);
            let before = field(&self.player.tables, which, index);
            self.field(which, index, value);
            self.probe();
            self.field(which, index, before);
            if self.random.chance(10) {
                self.probe();
            }
        }
        // Tables of other bytes than any record: a new load mends them.
        self.field(0, 0, 16);
        self.probe();
        let book = good_book(&mut self.random, plan);
        self.load(&book);
        self.probe();
        // So does a refused one.
        self.field(11, 3, 1);
        self.probe();
        self.load(&[1, 3]);
        self.probe();
    }

    /// One to three calls, whichever number they give.
    pub fn probe(&mut self) {
        let state = self.state_now();
        let record = if self.random.chance(85) {
            self.likely_granted(&state).as_record()
        } else {
            self.unreadable()
        };
        self.judge(&record);
        match self.random.below(5) {
            0 => self.put(&record),
            1 => self.some_run(3),
            2 => {
                let person = self.some_person();
                self.standing(person);
            }
            3 => self.wrong_length_call(),
            _ if !given(&self.player.tables) => self.blank(),
            _ => {}
        }
    }

    /// Mostly a declared entry of the array that `which` names.
    fn some_index(&mut self, which: u8) -> u8 {
        let tables = &self.player.tables;
        let declared: Vec<u8> = match which {
            1 | 2 => (0..64).filter(|firm| tables.firm_declared(*firm)).collect(),
            3 | 4 => self.declared_persons(),
            5..=8 | 12 => self.declared_folders(),
            9 | 10 => (0..32)
                .filter(|role| tables.roles[usize::from(*role)].declared)
                .collect(),
            11 => (0..16).collect(),
            _ => vec![0],
        };
        if self.random.chance(65) && !declared.is_empty() {
            self.random.pick(&declared)
        } else {
            self.random.byte()
        }
    }

    /// Values at the ends of ranges, past them, and wider than the field.
    fn some_value(&mut self, which: u8, index: u8) -> u64 {
        let any = self.random.number();
        match which {
            0 => self.random.pick(&[0, 7, 15, 16, 17, 128, 255, 256 + 9]),
            1 | 3 | 5 | 9 | 12 => self.random.pick(&[0, 0, 1, 256, any]),
            2 => self.random.pick(&[0, 1, 31, 32, 33, 255, 256 + 31]),
            4 | 8 => self.random.pick(&[0, 0, 65_535, 65_536, any]),
            6 => {
                let firm = self.random.pick(&[0, 63, 64, 255, 256, any % 64]);
                self.random.pick(&[firm, self.some_folder_firm()])
            }
            7 => self.random.pick(&[0, 1, 15, 16, 17, 255, 256 + 15]),
            10 => self.random.pick(&[0, 1, u64::MAX, any]),
            _ => self.some_step_set(index),
        }
    }

    /// The firm of some declared folder.
    pub fn some_folder_firm(&self) -> u64 {
        match self.declared_folders().first() {
            Some(folder) => u64::from(self.player.tables.folder(*folder).firm),
            None => 0,
        }
    }

    /// The step set as it is with one step put in or taken out, or any.
    fn some_step_set(&mut self, index: u8) -> u64 {
        if self.random.chance(20) {
            return self.random.number();
        }
        let mut set = places::<16>(field(&self.player.tables, 11, index));
        let step = self.random.below(16);
        set[step] = !set[step];
        number(&set)
    }

    /// Parties of a written history that are undeclared afterwards, entry by
    /// entry, in tables that some load gives: their bits are passed over.
    pub fn undeclared_later(&mut self, plan: &Plan) {
        self.begin(plan);
        for _ in 0..30 {
            self.foreign_byte();
        }
        if !self.next_has_other_levels() {
            self.store_levels_of_history();
        }
        let requests = self.some_list(30).concat();
        self.run(answers_due(&requests), &requests);
        self.standings_of_declared();
        let persons = self.declared_persons();
        let person = self.random.pick(&persons);
        self.field(4, person, 0);
        self.field(3, person, 0);
        self.after_undeclaring(person);
        let folders = self.declared_folders();
        let folder = self.random.pick(&folders);
        for which in [6, 7, 8, 12, 5] {
            self.field(which, folder, 0);
        }
        self.after_undeclaring(person);
        for role in 0..32 {
            if self.player.tables.roles[usize::from(role)].declared {
                self.field(10, role, 0);
                self.field(9, role, 0);
                self.after_undeclaring(person);
            }
        }
        self.undeclare_firms();
    }

    /// A firm with a folder must stay, a firm without one need not.
    fn undeclare_firms(&mut self) {
        for firm in 0..64 {
            if self.player.tables.firm_declared(firm) {
                self.field(2, firm, 0);
                self.field(1, firm, 0);
                self.probe();
                self.field(1, firm, 1);
                self.probe();
            }
        }
    }

    fn after_undeclaring(&mut self, person: u8) {
        self.standing(person);
        self.standings_of_declared();
        for _ in 0..12 {
            let request = self.some_request();
            self.judge(&request.as_record());
        }
        for record in self.some_list(6) {
            self.put(&record);
        }
    }
}
