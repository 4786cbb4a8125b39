//! Plays a file of calls and prints what a correct monitor prints for it.
//! The format is described in FORMAT.md.

use crate::book::{load, rest};
use crate::calls::{blank, judge, put, run, standing};
use crate::command::{Command, Lengths, Reader};
use crate::fields::{digest, set_field, table_bytes};
use crate::numbers::GRANTED;
use crate::plan::{plan, Job, Plan, JOB_BYTES};
use crate::tables::Tables;
use std::collections::BTreeMap;

/// The history buffer is a little longer than a history, and the level buffer
/// than the levels.
pub const HISTORY_BUFFER: usize = 18_960;
pub const LEVEL_BUFFER: usize = 144;
pub const ANSWER_BUFFER: usize = 4_096;

/// How often each call gave each number; answers inside runs are counted
/// under their own name.
pub type Tally = BTreeMap<(&'static str, u8), usize>;

/// The state between commands, and what has been printed.
pub struct Player {
    pub tables: Tables,
    pub history: Vec<u8>,
    pub levels: Vec<u8>,
    pub answers: Vec<u8>,
    pub text: String,
    pub tally: Tally,
}

impl Player {
    pub fn new() -> Player {
        Player {
            tables: Tables::empty_book(),
            history: vec![0; HISTORY_BUFFER],
            levels: vec![0; LEVEL_BUFFER],
            answers: vec![0; ANSWER_BUFFER],
            text: String::new(),
            tally: Tally::new(),
        }
    }

    pub fn follow(&mut self, command: &Command) {
        match command {
            Command::Load { book } => self.load(book),
            Command::Blank { lent } => self.blank(lent),
            Command::Judge { lent, request } => self.judge(lent, request),
            Command::Put { lent, request } => self.put(lent, request),
            Command::Run {
                lent,
                answers,
                requests,
            } => self.run(lent, *answers, requests),
            Command::Standing { lent, person } => self.standing(lent, *person),
            Command::Field {
                which,
                index,
                value,
            } => set_field(&mut self.tables, *which, *index, *value),
            Command::Byte { at, value } => {
                self.history[usize::from(*at) % HISTORY_BUFFER] = *value;
            }
            Command::Fill { value } => self.answers.fill(*value),
            Command::LevelByte { at, value } => {
                self.levels[usize::from(*at) % LEVEL_BUFFER] = *value;
            }
            Command::Plan { lent, jobs } => self.plan(lent, jobs),
        }
    }

    fn load(&mut self, book: &[u8]) {
        let loaded = load(book);
        self.tables = loaded.tables;
        self.count("load", loaded.number);
        self.print(format!(
            "load {} {} {} {}",
            loaded.number,
            loaded.offset,
            rest(book).len(),
            digest(&table_bytes(&self.tables))
        ));
    }

    /// The tables and the front parts of the buffers that a call is lent.
    fn lend(&mut self, lent: &Lengths) -> (&Tables, &mut [u8], &mut [u8]) {
        let history = front_length(lent.history, HISTORY_BUFFER);
        let levels = front_length(u16::from(lent.levels), LEVEL_BUFFER);
        (
            &self.tables,
            &mut self.history[..history],
            &mut self.levels[..levels],
        )
    }

    /// The digests of the history buffer and of the level buffer.
    fn digests(&self) -> String {
        format!("{} {}", digest(&self.history), digest(&self.levels))
    }

    fn blank(&mut self, lent: &Lengths) {
        let (tables, history, levels) = self.lend(lent);
        let number = blank(tables, history, levels);
        self.count("blank", number);
        self.print(format!("blank {} {}", number, self.digests()));
    }

    fn judge(&mut self, lent: &Lengths, request: &[u8]) {
        let (tables, history, levels) = self.lend(lent);
        let number = judge(tables, history, levels, request);
        self.count("judge", number);
        self.print(format!("judge {}", number));
    }

    fn put(&mut self, lent: &Lengths, request: &[u8]) {
        let (tables, history, levels) = self.lend(lent);
        let number = put(tables, history, levels, request);
        self.count("put", number);
        self.print(format!("put {} {}", number, self.digests()));
    }

    fn run(&mut self, lent: &Lengths, answers: u16, requests: &[u8]) {
        let mut answer_bytes = std::mem::take(&mut self.answers);
        let room = &mut answer_bytes[..front_length(answers, ANSWER_BUFFER)];
        let (tables, history, levels) = self.lend(lent);
        let ran = run(tables, history, levels, requests, room);
        self.answers = answer_bytes;
        self.count("run", ran.number);
        if ran.number == GRANTED {
            for place in 0..ran.granted + ran.refused {
                self.count("answer in a run", self.answers[place]);
            }
        }
        self.print(format!(
            "run {} {} {} {} {}",
            ran.number,
            ran.granted,
            ran.refused,
            self.digests(),
            digest(&self.answers)
        ));
    }

    fn standing(&mut self, lent: &Lengths, person: u8) {
        let (tables, history, levels) = self.lend(lent);
        let found = standing(tables, history, levels, person);
        self.count("standing", found.number);
        self.print(format!(
            "standing {} {} {} {}",
            found.number, found.level, found.rights, found.firms
        ));
    }

    fn plan(&mut self, lent: &Lengths, jobs: &[u8]) {
        let (tables, history, levels) = self.lend(lent);
        let planned = plan(tables, history, levels, jobs);
        self.count("plan", planned.number);
        self.put_planned(lent, jobs, &planned);
    }

    /// Puts the jobs in the order of a plan, if its number is 0, and prints its
    /// line.
    pub fn put_planned(&mut self, lent: &Lengths, jobs: &[u8], planned: &Plan) {
        let jobs: Vec<Job> = jobs.chunks(JOB_BYTES).filter_map(Job::of_bytes).collect();
        let count = match planned.number {
            GRANTED => jobs.len().min(planned.positions.len()),
            _ => 0,
        };
        let (order, rest) = planned.positions.split_at(count);
        let mut granted = 0;
        for position in order {
            let job = jobs.get(usize::from(*position));
            let record = job.map_or(Vec::new(), Job::record);
            let (tables, history, levels) = self.lend(lent);
            granted += usize::from(put(tables, history, levels, &record) == GRANTED);
        }
        self.print(format!(
            "plan {} {} {} {}",
            planned.number,
            granted,
            rest.iter().filter(|position| **position != 0).count(),
            self.digests()
        ));
    }

    fn print(&mut self, line: String) {
        self.text.push_str(&line);
        self.text.push('\n');
    }

    fn count(&mut self, call: &'static str, number: u8) {
        *self.tally.entry((call, number)).or_insert(0) += 1;
    }
}

impl Default for Player {
    fn default() -> Player {
        Player::new()
    }
}

/// Plays a whole file of calls.
pub fn play(calls: &[u8]) -> Player {
    let mut player = Player::new();
    let mut reader = Reader { left: calls };
    while let Some(command) = reader.command() {
        player.follow(&command);
    }
    player
}

/// A length that a command names, at most that of the buffer.
fn front_length(named: u16, buffer: usize) -> usize {
    usize::from(named).min(buffer)
}

#[cfg(test)]
mod tests {
    use super::*;

    #[test]
    fn a_command_cut_short_ends_the_play() {
        let command = Command::Run {
            lent: Lengths {
                history: 18_944,
                levels: 128,
            },
            answers: 5,
            requests: vec![16, 0, 0],
        };
        let bytes = command.as_bytes();
        assert_eq!(play(&bytes).text.lines().count(), 1);
        for length in 0..bytes.len() {
            assert_eq!(play(&bytes[..length]).text, "");
        }
        assert_eq!(play(&[0, 2, 0, 74, 128]).text, "");
        assert_eq!(play(&[12, 2, 0, 74, 128]).text, "");
    }

    #[test]
    fn named_lengths_and_places_past_the_level_buffer() {
        // A blank of 255 bytes, taken as 144, and bytes 3, 4 and 144 + 4.
        let calls = [2, 0, 74, 255, 10, 3, 9, 10, 4, 8, 10, 148, 7];
        let player = play(&calls);
        assert_eq!(player.tally, Tally::from([(("blank", 20), 1)]));
        let mut expected = vec![0; LEVEL_BUFFER];
        (expected[3], expected[4]) = (9, 7);
        assert_eq!(player.levels, expected);
    }
}
