//! A scene: one book, one history with levels, and calls on both monitors.

mod plans;

pub use plans::play_plans;

use crate::books::{good_book, some_bit, some_book};
use crate::lent::Lent;
use crate::monitor::Monitor;
use crate::requests::Parties;
use crate::seen::{Seen, ANSWER};
use kweldabe::{HISTORY_BYTES, LEVELS_BYTES};
use reference::history::set_of;
use reference::levels::{levels_by_history, write_levels};
use reference::random::Random;
use reference::Buffers;
use std::fmt::Debug;

/// The calls of a scene beside load and rest.
const CALLS: usize = 40;

/// In so many of a hundred calls the levels have another length. In about half
/// of the scenes they disagree with the history, so that good levels, levels of
/// another length and levels that disagree come about as often.
const WRONG_LEVELS: usize = 33;

/// The calls of a scene with a dense history, on which the reference is slow.
const DENSE_CALLS: usize = 4;

/// Plays the scene of a seed: how many calls agree, or the first difference.
pub fn play(monitor: &impl Monitor, seed: u64, seen: &mut Seen) -> Result<usize, String> {
    let mut random = Random::new(seed);
    let book = some_book(&mut random);
    let mut scene = Scene::new(monitor, seen, random, book);
    scene.wrong_levels = WRONG_LEVELS;
    scene
        .all_calls()
        .map_err(|found| format!("seed {seed}, call {}: {found}", scene.calls))?;
    scene.count_levels();
    Ok(scene.calls)
}

/// Plays one run of so many requests, from blank.
pub fn play_long(monitor: &impl Monitor, seed: u64, count: usize) -> Result<(), String> {
    let mut random = Random::new(seed);
    let book = good_book(&mut random);
    let mut seen = Seen::default();
    let mut scene = Scene::new(monitor, &mut seen, random, book);
    scene.history = vec![0; HISTORY_BYTES];
    scene.levels = scene.levels_given();
    scene
        .run_of(count, count + 1)
        .map_err(|found| format!("seed {seed}: {found}"))
}

struct Scene<'a, M: Monitor> {
    monitor: &'a M,
    seen: &'a mut Seen,
    random: Random,
    book: Lent,
    book_before: Vec<u8>,
    loaded: reference::Loaded,
    parties: Parties,
    /// The history and the levels of the reference; both monitors start each
    /// call from them.
    history: Vec<u8>,
    levels: Vec<u8>,
    /// In so many of a hundred calls the levels have another length.
    wrong_levels: usize,
    /// Whether some list put from blank leaves both.
    left_by_a_list: bool,
    calls: usize,
}

fn same<T: PartialEq + Debug>(call: &str, ours: T, theirs: T) -> Result<(), String> {
    if ours == theirs {
        return Ok(());
    }
    Err(format!(
        "{call} gave {ours:?}, and the reference {theirs:?}"
    ))
}

fn kept(call: &str, what: &str, lent: &Lent, bytes: &[u8]) -> Result<(), String> {
    if lent.is(bytes) {
        return Ok(());
    }
    Err(format!("{call} left other bytes in the {what}"))
}

/// History and levels, each with guard bytes.
struct LentBuffers {
    history: Lent,
    levels: Lent,
}

impl LentBuffers {
    fn new(bytes: &Buffers) -> LentBuffers {
        LentBuffers {
            history: Lent::new(&bytes.history),
            levels: Lent::new(&bytes.levels),
        }
    }

    fn kept(&self, call: &str, bytes: &Buffers) -> Result<(), String> {
        kept(call, "history", &self.history, &bytes.history)?;
        kept(call, "levels", &self.levels, &bytes.levels)
    }
}

impl<'a, M: Monitor> Scene<'a, M> {
    fn new(monitor: &'a M, seen: &'a mut Seen, mut random: Random, book: Vec<u8>) -> Self {
        let loaded = reference::load(&book);
        Scene {
            monitor,
            seen,
            parties: Parties::of(&mut random, &loaded.tables),
            random,
            book: Lent::new(&book),
            book_before: book,
            loaded,
            history: Vec::new(),
            levels: Vec::new(),
            wrong_levels: 0,
            left_by_a_list: false,
            calls: 0,
        }
    }

    fn all_calls(&mut self) -> Result<(), String> {
        self.load()?;
        self.rest()?;
        let dense = self.random.chance(1);
        self.history = self.first_history(dense);
        self.levels = self.first_levels();
        self.left_by_a_list = Buffers::blank(&self.loaded.tables) == self.both();
        let calls = if dense { DENSE_CALLS } else { CALLS };
        for _ in 0..calls {
            self.some_call()?;
        }
        Ok(())
    }

    fn both(&self) -> Buffers {
        Buffers {
            history: self.history.clone(),
            levels: self.levels.clone(),
        }
    }

    fn first_history(&mut self, dense: bool) -> Vec<u8> {
        let mut history = vec![0; HISTORY_BYTES];
        if dense {
            history.fill_with(|| self.random.byte());
        } else if self.random.chance(50) {
            for _ in 0..self.random.below(300) {
                history[self.random.below(HISTORY_BYTES)] = self.random.byte();
            }
            // The end of the buffer, which few random places reach.
            if self.random.chance(20) {
                history[HISTORY_BYTES - 1] = self.random.byte();
            }
        }
        history
    }

    /// The levels that the history gives.
    fn levels_given(&self) -> Vec<u8> {
        let given = levels_by_history(&self.loaded.tables, &set_of(&self.history));
        let mut levels = vec![0; LEVELS_BYTES];
        write_levels(&given, &mut levels);
        levels
    }

    /// The levels that the history gives, or others: with a bit of many declared
    /// persons and of some others changed, or any.
    fn first_levels(&mut self) -> Vec<u8> {
        let mut levels = self.levels_given();
        let any = self.random.chance(4);
        if any {
            levels.fill_with(|| self.random.byte());
        } else if self.random.chance(55) {
            for person in 0..64 {
                let declared = self.loaded.tables.person_declared(person);
                if self.random.chance(if declared { 60 } else { 10 }) {
                    let bit = some_bit(&mut self.random);
                    levels[2 * usize::from(person) + bit / 8] ^= 1 << (bit % 8);
                }
            }
        }
        levels
    }

    /// Whether the levels of all declared persons are those that the history
    /// gives.
    fn count_levels(&mut self) {
        let (given, tables) = (self.levels_given(), &self.loaded.tables);
        let agrees = |person: &u8| {
            let at = 2 * usize::from(*person);
            given[at..at + 2] == self.levels[at..at + 2]
        };
        let mut declared = (0..64).filter(|person| tables.person_declared(*person));
        if self.loaded.number == 0 {
            self.seen.levels[usize::from(declared.all(|person| agrees(&person)))] += 1;
        }
    }

    /// Now and then somebody else stores a level.
    fn some_call(&mut self) -> Result<(), String> {
        if self.random.chance(1) {
            self.store_a_level();
        }
        match self.random.below(100) {
            0..=1 => self.blank(),
            2..=28 => self.judge(),
            29..=65 => self.put(),
            66..=78 => self.run(),
            79..=90 => self.standing(),
            _ => self.plan(),
        }
    }

    /// Counts a call by its number, and checks the bytes of the book.
    fn ended(&mut self, call: &'static str, number: u8) -> Result<(), String> {
        self.calls += 1;
        self.seen.count(call, number);
        kept(call, "book", &self.book, &self.book_before)
    }

    /// The bytes, or in so many of a hundred calls bytes of another length.
    fn some_lent(&mut self, bytes: Vec<u8>, wrong: usize) -> Vec<u8> {
        if !self.random.chance(wrong) {
            return bytes;
        }
        let near = bytes.len() + self.random.pick(&[0, 1, 3, 4]) - 2;
        let length = self.random.pick(&[0, 1, near, 2 * bytes.len()]);
        (0..length).map(|_| self.random.byte()).collect()
    }

    fn some_buffers(&mut self) -> Buffers {
        let Buffers { history, levels } = self.both();
        Buffers {
            history: self.some_lent(history, 4),
            levels: self.some_lent(levels, self.wrong_levels),
        }
    }

    /// What the reference gives: the number of a refused book first.
    fn refused_book(&self) -> Option<u8> {
        (self.loaded.number != 0).then_some(self.loaded.number)
    }

    /// Keeps what the reference left, where it was of the right lengths.
    fn keep(&mut self, left: Buffers) {
        if left.history.len() == HISTORY_BYTES && left.levels.len() == LEVELS_BYTES {
            self.history = left.history;
            self.levels = left.levels;
        }
    }

    fn load(&mut self) -> Result<(), String> {
        let ours = self.monitor.load(self.book.bytes());
        let theirs = kweldabe::Loaded {
            number: self.loaded.number,
            offset: self.loaded.offset,
        };
        same("load", ours, theirs)?;
        self.ended("load", theirs.number)
    }

    fn rest(&mut self) -> Result<(), String> {
        let book = self.book.bytes();
        same("rest", self.monitor.rest(book), reference::rest(book))?;
        self.ended("rest", self.loaded.number)
    }

    fn blank(&mut self) -> Result<(), String> {
        let mut theirs = self.some_buffers();
        let mut ours = LentBuffers::new(&theirs);
        let number = self.refused_book().unwrap_or_else(|| {
            let tables = &self.loaded.tables;
            reference::blank(tables, &mut theirs.history, &mut theirs.levels)
        });
        let (history, levels) = (ours.history.bytes_mut(), ours.levels.bytes_mut());
        let given = self.monitor.blank(self.book.bytes(), history, levels);
        same("blank", given, number)?;
        ours.kept("blank", &theirs)?;
        self.left_by_a_list |= number == 0;
        self.keep(theirs);
        self.ended("blank", number)
    }

    fn judge(&mut self) -> Result<(), String> {
        let theirs = self.some_buffers();
        let request = self.parties.request(&mut self.random);
        let (mut ours, asked) = (LentBuffers::new(&theirs), Lent::new(&request));
        let number = self
            .refused_book()
            .unwrap_or_else(|| theirs.judge(&self.loaded.tables, &request));
        let (history, levels) = (ours.history.bytes(), ours.levels.bytes_mut());
        let given = self
            .monitor
            .judge(self.book.bytes(), history, levels, asked.bytes());
        same("judge", given, number)?;
        ours.kept("judge", &theirs)?;
        kept("judge", "request", &asked, &request)?;
        self.ended("judge", number)
    }

    fn put(&mut self) -> Result<(), String> {
        let mut theirs = self.some_buffers();
        let request = self.parties.request(&mut self.random);
        let (mut ours, asked) = (LentBuffers::new(&theirs), Lent::new(&request));
        let number = self
            .refused_book()
            .unwrap_or_else(|| theirs.put(&self.loaded.tables, &request));
        let (history, levels) = (ours.history.bytes_mut(), ours.levels.bytes_mut());
        let given = self
            .monitor
            .put(self.book.bytes(), history, levels, asked.bytes());
        same("put", given, number)?;
        ours.kept("put", &theirs)?;
        kept("put", "request", &asked, &request)?;
        self.keep(theirs);
        self.ended("put", number)
    }

    fn run(&mut self) -> Result<(), String> {
        let most = self.random.pick(&[0, 3, 3, 10, 60]);
        let count = self.random.below(most + 1);
        let room = self.random.pick(&[count, count + 1, count + 9, count / 2]);
        self.run_of(count, room)
    }

    /// A run of so many records, with so much room for answers.
    fn run_of(&mut self, count: usize, room: usize) -> Result<(), String> {
        let mut theirs = self.some_buffers();
        let requests = self.parties.requests(&mut self.random, count);
        let mut their_answers: Vec<u8> = (0..room).map(|_| self.random.byte()).collect();
        let (mut ours, asked) = (LentBuffers::new(&theirs), Lent::new(&requests));
        let mut our_answers = Lent::new(&their_answers);
        let ran = match self.refused_book() {
            Some(number) => (number, 0, 0),
            None => {
                let ran = theirs.run(&self.loaded.tables, &requests, &mut their_answers);
                (ran.number, ran.granted, ran.refused)
            }
        };
        let given = self.monitor.run(
            self.book.bytes(),
            ours.history.bytes_mut(),
            ours.levels.bytes_mut(),
            asked.bytes(),
            our_answers.bytes_mut(),
        );
        same("run", (given.number, given.granted, given.refused), ran)?;
        ours.kept("run", &theirs)?;
        kept("run", "requests", &asked, &requests)?;
        kept("run", "answers", &our_answers, &their_answers)?;
        for answer in &their_answers[..ran.1 + ran.2] {
            self.seen.count(ANSWER, *answer);
        }
        self.keep(theirs);
        self.ended("run", ran.0)
    }

    fn standing(&mut self) -> Result<(), String> {
        let theirs = self.some_buffers();
        let person = self.parties.person(&mut self.random);
        let mut ours = LentBuffers::new(&theirs);
        let found = match self.refused_book() {
            Some(number) => reference::Standing {
                number,
                level: 0,
                rights: 0,
                firms: 0,
            },
            None => theirs.standing(&self.loaded.tables, person),
        };
        let due = kweldabe::Standing {
            number: found.number,
            level: found.level,
            rights: found.rights,
            firms: found.firms,
        };
        let (history, levels) = (ours.history.bytes(), ours.levels.bytes_mut());
        let given = self
            .monitor
            .standing(self.book.bytes(), history, levels, person);
        same("standing", given, due)?;
        ours.kept("standing", &theirs)?;
        self.ended("standing", found.number)
    }
}
