//! Scenes of public folders: a rival's, and marks set in the tables.

use super::plans::Plan;
use super::Generator;
use crate::marked;
use crate::request::Request;

impl Generator {
    /// A public folder of a rival, and books that are refused for a mark.
    pub fn public_folder(&mut self) {
        for (requests, _) in marked::PUBLIC_LISTS {
            self.load(&marked::PUBLIC_BOOK);
            self.blank();
            for record in requests.chunks(3) {
                self.judge(record);
                self.put(record);
            }
            self.standings_of_declared();
            self.blank();
            self.run(4, &requests);
        }
        for book in [
            &[1, 1, 7, 0, 0][..],
            &[1, 1, 7, 128, 0],
            &[1, 1, 2, 0, 0, 4, 0, 0, 0, 0, 0, 7, 0, 7, 0, 0],
            &[1, 1, 8, 0, 0],
            &[1, 1, 7],
            &[1, 1, 7, 5, 2, 0, 0, 4, 5, 0, 0, 0, 0, 0],
        ] {
            self.load(book);
        }
    }

    /// The mark of each folder turned over: the wall follows it. Then marks
    /// of undeclared folders, in tables that no load gives.
    pub fn changed_marks(&mut self, plan: &Plan) {
        self.begin(plan);
        for record in self.some_list(25) {
            self.put(&record);
        }
        let mut folders = self.declared_folders();
        self.random.shuffle(&mut folders);
        for folder in folders {
            self.turn_mark(folder);
            self.accesses_of(folder);
            if self.random.chance(60) {
                self.turn_mark(folder);
            }
        }
        for _ in 0..3 {
            self.mark_of_undeclared();
        }
    }

    /// Any value but 0 marks the folder, and the index is taken modulo 128.
    fn turn_mark(&mut self, folder: u8) {
        let index = self.random.pick(&[folder, folder + 128]);
        let value = if self.player.tables.folder(folder).public {
            0
        } else {
            self.random.pick(&[1, 2, 256, 1 << 63])
        };
        self.field(12, index, value);
    }

    /// Accesses of one folder and of others, by any persons, and standings.
    fn accesses_of(&mut self, folder: u8) {
        for _ in 0..2 {
            let person = self.some_person();
            self.judge(&Request::Read { person, folder }.as_record());
            self.put(&Request::Write { person, folder }.as_record());
            for _ in 0..3 {
                let folder = self.some_folder();
                self.judge(&Request::Read { person, folder }.as_record());
            }
            self.standing(person);
        }
    }

    /// A mark without its folder, then with it, and without it again.
    fn mark_of_undeclared(&mut self) {
        let others: Vec<u8> = (0..128)
            .filter(|folder| !self.player.tables.folder_declared(*folder))
            .collect();
        let folder = self.random.pick(&others);
        self.turn_mark(folder);
        self.probe();
        let firm = self.some_folder_firm();
        self.field(6, folder, firm);
        self.field(5, folder, 1);
        self.accesses_of(folder);
        self.field(6, folder, 0);
        self.field(5, folder, 0);
        self.probe();
        self.turn_mark(folder);
        self.probe();
    }
}
