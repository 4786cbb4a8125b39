//! Writes the files of calls described in FORMAT.md. A player follows along,
//! so that requests can be chosen by what they would be answered.

mod altered;
mod books;
mod clearance;
mod held;
mod jobs;
mod lengths;
mod marks;
mod plans;
mod requests;
mod scenes;
mod steps;
mod stretches;

use crate::command::{Command, Lengths};
use crate::history::HISTORY_BYTES;
use crate::levels::LEVELS_BYTES;
use crate::play::Player;
use crate::random::Random;
use plans::Plan;

/// The seed of the committed files.
pub const SEED: u64 = 1;

/// The usual lengths.
const WHOLE: Lengths = Lengths {
    history: HISTORY_BYTES as u16,
    levels: LEVELS_BYTES as u8,
};

pub struct Generator {
    random: Random,
    player: Player,
    calls: Vec<u8>,
    /// How many scenes of lists there were.
    lists: usize,
}

/// The file of calls for a seed.
pub fn calls(seed: u64) -> Vec<u8> {
    let mut generator = Generator {
        random: Random::new(seed),
        player: Player::new(),
        calls: Vec::new(),
        lists: 0,
    };
    generator.all_scenes();
    generator.calls.push(0);
    generator.calls
}

impl Generator {
    fn send(&mut self, command: Command) {
        self.calls.extend(command.as_bytes());
        self.player.follow(&command);
    }

    fn load(&mut self, book: &[u8]) {
        self.send(Command::Load {
            book: book.to_vec(),
        });
    }

    fn blank(&mut self) {
        self.send(Command::Blank { lent: WHOLE });
    }

    fn judge(&mut self, request: &[u8]) {
        self.send(Command::Judge {
            lent: WHOLE,
            request: request.to_vec(),
        });
    }

    fn put(&mut self, request: &[u8]) {
        self.send(Command::Put {
            lent: WHOLE,
            request: request.to_vec(),
        });
    }

    fn run(&mut self, answers: usize, requests: &[u8]) {
        self.send(Command::Run {
            lent: WHOLE,
            answers: answers as u16,
            requests: requests.to_vec(),
        });
    }

    fn standing(&mut self, person: u8) {
        self.send(Command::Standing {
            lent: WHOLE,
            person,
        });
    }

    fn field(&mut self, which: u8, index: u8, value: u64) {
        self.send(Command::Field {
            which,
            index,
            value,
        });
    }

    fn byte(&mut self, at: usize, value: u8) {
        self.send(Command::Byte {
            at: at as u16,
            value,
        });
    }

    fn fill(&mut self, value: u8) {
        self.send(Command::Fill { value });
    }

    fn plan(&mut self, jobs: &[u8]) {
        self.send(Command::Plan {
            lent: WHOLE,
            jobs: jobs.to_vec(),
        });
    }

    fn level_byte(&mut self, at: usize, value: u8) {
        self.send(Command::LevelByte {
            at: at as u8,
            value,
        });
    }

    /// Whether the next scene of a list stores other levels: three of five do.
    fn next_has_other_levels(&mut self) -> bool {
        self.lists += 1;
        [1, 3, 4].contains(&(self.lists % 5))
    }

    /// Loads a good book of a plan and blanks history and levels.
    fn begin(&mut self, plan: &Plan) {
        let book = books::good_book(&mut self.random, plan);
        self.load(&book);
        self.blank();
    }
}
