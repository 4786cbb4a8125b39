//! Scenes of histories, levels and answer buffers of wrong lengths, and long
//! runs.

use super::plans::Plan;
use super::{Generator, WHOLE};
use crate::calls::answers_due;
use crate::command::{Command, Lengths};
use crate::marked;
use crate::play::ANSWER_BUFFER;

/// History lengths that are answered 10; the last two are taken as 18,960.
const WRONG_HISTORIES: [u16; 8] = [0, 1, 8192, 18_943, 18_945, 18_960, 18_961, 65_535];

/// Lengths of levels that are answered 20; the last two are taken as 144.
const WRONG_LEVELS: [u8; 10] = [0, 1, 2, 64, 127, 129, 130, 144, 145, 255];

impl Generator {
    /// Any call with a history or levels of another length, or both: 10 or 20,
    /// and no byte changes.
    pub fn wrong_length_call(&mut self) {
        let history = self.random.pick(&WRONG_HISTORIES);
        let levels = self.random.pick(&WRONG_LEVELS);
        let lent = match self.random.below(5) {
            0..=1 => Lengths { history, ..WHOLE },
            2..=3 => Lengths { levels, ..WHOLE },
            _ => Lengths { history, levels },
        };
        let request = if self.random.chance(70) {
            self.some_request().as_record()
        } else {
            self.unreadable()
        };
        let person = self.some_person();
        let answers = self.random.pick(&[0, 1, 2, 4096]);
        let which = self.random.below(5);
        self.send(call_of(which, lent, request, answers, person));
    }

    /// Each call with each of the causes of 10, 20 and 11, alone and together,
    /// over levels that no list leaves.
    pub fn order_of_checks(&mut self) {
        self.load(&marked::BOOK);
        self.blank();
        self.put(&[16, 0, 2]);
        self.store_other_levels(4);
        for mask in [15, 16] {
            self.field(0, 0, mask);
            for history in [18_944, 18_945, 18_943] {
                for levels in [128, 127, 129] {
                    let lent = Lengths { history, levels };
                    for which in 0..5 {
                        self.send(call_of(which, lent, vec![16, 0, 2], 0, 0));
                    }
                }
            }
        }
    }

    pub fn wrong_lengths(&mut self) {
        let plan = Plan::small(&mut self.random, 3);
        self.begin(&plan);
        for record in self.some_list(10) {
            self.put(&record);
        }
        for _ in 0..75 {
            self.wrong_length_call();
        }
        // 10 and 20 stand before 11.
        self.field(0, 0, 77);
        for _ in 0..20 {
            self.wrong_length_call();
            self.probe();
        }
        self.blank();
    }

    /// Each number of answer bytes up to one more than is due.
    pub fn too_few_answers(&mut self) {
        let plan = Plan::small(&mut self.random, 15);
        self.begin(&plan);
        self.fill(200);
        for count in 0..8 {
            let mut requests = self.some_list(count).concat();
            if count % 2 == 1 {
                requests.extend(self.unreadable());
            }
            for answers in 0..=answers_due(&requests) + 1 {
                self.run(answers, &requests);
            }
        }
        // Every unknown kind ends a run at once, and is one answer due.
        for kind in [0, 15, 20, 255] {
            self.run(0, &[kind]);
            self.run(1, &[kind, 16, 0, 0]);
        }
        // 20 and 11 stand before 18, and 10 before all.
        for mask in [15, 16] {
            self.field(0, 0, mask);
            self.run(0, &[16, 0, 0]);
            for (history, levels) in [(18_943, 128), (18_944, 127), (18_943, 127)] {
                self.send(Command::Run {
                    lent: Lengths { history, levels },
                    answers: 0,
                    requests: vec![16, 0, 0],
                });
            }
        }
        self.run(0, &[]);
    }

    /// As many answers as the answer buffer holds, and one more. With so few
    /// levels of folders every rule refuses a good part.
    pub fn long_runs(&mut self) {
        let plan = Plan {
            row: &[2],
            ..Plan::full(15)
        };
        self.begin(&plan);
        self.fill(170);
        self.store_others_for_declared();
        let mut requests = self.some_list(ANSWER_BUFFER).concat();
        let mut longer = requests.clone();
        longer.push(16);
        self.run(65_535, &longer);
        self.run(ANSWER_BUFFER, &requests);
        self.standings_of_everyone();
        requests.truncate(1000);
        requests.push(255);
        self.run(ANSWER_BUFFER, &requests);
    }
}

/// One of the five calls that are lent a history and levels.
fn call_of(which: usize, lent: Lengths, request: Vec<u8>, answers: u16, person: u8) -> Command {
    match which {
        0 => Command::Blank { lent },
        1 => Command::Judge { lent, request },
        2 => Command::Put { lent, request },
        3 => Command::Run {
            lent,
            answers,
            requests: request,
        },
        _ => Command::Standing { lent, person },
    }
}
