//! Monitors that are wrong in one place each.

use crate::clearance::Judged;
use crate::monitor::Monitor;
use kweldabe::{Loaded, Ran, Standing, HISTORY_BYTES, LEVELS_BYTES};
use reference::history::set_of;
use reference::levels::{levels_by_history, write_levels};
use reference::request::read_record;
use reference::{Level, Request, Tables};

#[derive(Clone, Copy, PartialEq, Eq, Debug)]
pub enum Mutation {
    BlankKeepsAByte,
    OffsetOfNext,
    RestOfRefused,
    LowWaterPasses,
    RefusalRecorded,
    GrantNotRecorded,
    AnswerPastTheLast,
    CountsSwapped,
    OneFirmMore,
    SixForNineteen,
    PublicNotPassed,
    PublicPastCounts,
    StepPassesLowWater,
    StepByFirstLevel,
    StepsDoNotLower,
    CreateDoesNotLower,
    WritesLower,
    RefusedReadLowers,
    LowersInForceAlone,
    MeetsFirstLevel,
    GrantClearsUndeclared,
    BlankLeavesUndeclared,
    TwentyBeforeTen,
    StartByOnePerson,
    StartTurnedRound,
    LowWaterByHistory,
    StandingByHistory,
    HighByteFirst,
    JudgeLowers,
    RunDoesNotLower,
    RefusedRunLowers,
    MissingBeforeRank,
    NumbersExchanged,
    AlwaysFifteen,
    MissingGrants,
    StartNumberTurnedRound,
    EqualRankTooLow,
    WriteKeepsFifteen,
    StartKeepsFifteen,
    StepKeepsFifteen,
    TwentyOneBeforeWall,
    TwentyOneAfterOthers,
    PutAlwaysFifteen,
    RunAlwaysFifteen,
}

impl Mutation {
    pub const ALL: [Mutation; 44] = [
        Mutation::BlankKeepsAByte,
        Mutation::OffsetOfNext,
        Mutation::RestOfRefused,
        Mutation::LowWaterPasses,
        Mutation::RefusalRecorded,
        Mutation::GrantNotRecorded,
        Mutation::AnswerPastTheLast,
        Mutation::CountsSwapped,
        Mutation::OneFirmMore,
        Mutation::SixForNineteen,
        Mutation::PublicNotPassed,
        Mutation::PublicPastCounts,
        Mutation::StepPassesLowWater,
        Mutation::StepByFirstLevel,
        Mutation::StepsDoNotLower,
        Mutation::CreateDoesNotLower,
        Mutation::WritesLower,
        Mutation::RefusedReadLowers,
        Mutation::LowersInForceAlone,
        Mutation::MeetsFirstLevel,
        Mutation::GrantClearsUndeclared,
        Mutation::BlankLeavesUndeclared,
        Mutation::TwentyBeforeTen,
        Mutation::StartByOnePerson,
        Mutation::StartTurnedRound,
        Mutation::LowWaterByHistory,
        Mutation::StandingByHistory,
        Mutation::HighByteFirst,
        Mutation::JudgeLowers,
        Mutation::RunDoesNotLower,
        Mutation::RefusedRunLowers,
        Mutation::MissingBeforeRank,
        Mutation::NumbersExchanged,
        Mutation::AlwaysFifteen,
        Mutation::MissingGrants,
        Mutation::StartNumberTurnedRound,
        Mutation::EqualRankTooLow,
        Mutation::WriteKeepsFifteen,
        Mutation::StartKeepsFifteen,
        Mutation::StepKeepsFifteen,
        Mutation::TwentyOneBeforeWall,
        Mutation::TwentyOneAfterOthers,
        Mutation::PutAlwaysFifteen,
        Mutation::RunAlwaysFifteen,
    ];
}

/// The bit of low-water in a mask.
const LOW_WATER: u8 = 2;

fn tables_of(book: &[u8]) -> Tables {
    reference::load(book).tables
}

/// A person's two bytes.
fn entry(levels: &mut [u8], person: u8) -> &mut [u8] {
    let at = 2 * usize::from(person);
    &mut levels[at..at + 2]
}

/// Stores the meet of a level and that of the folder which a request names.
fn lower(tables: &Tables, levels: &mut [u8], request: &Request, first: bool) {
    if let (Some(folder), true) = (request.folder_accessed(), request.parties_declared(tables)) {
        let entry = entry(levels, request.person());
        let before = match first {
            true => tables.persons[usize::from(request.person())].level,
            false => Level::from_number(u16::from_le_bytes([entry[0], entry[1]])),
        };
        let level = before.meet(&tables.folder(folder).level).number();
        entry.copy_from_slice(&level.to_le_bytes());
    }
}

pub struct Mutant {
    pub mutation: Mutation,
}

impl Mutant {
    fn is(&self, mutation: Mutation) -> bool {
        self.mutation == mutation
    }

    /// The book by which a request is judged: for two mutations the folder
    /// asked for has no mark, or every other folder has none.
    fn book_for(&self, book: &[u8], request: &[u8]) -> Vec<u8> {
        let asked = read_record(request).and_then(|request| request.folder_accessed());
        let loaded = reference::load(book);
        let (own, others) = (
            self.is(Mutation::PublicNotPassed),
            self.is(Mutation::PublicPastCounts),
        );
        if loaded.number != 0 || !(own || others) {
            return book.to_vec();
        }
        let mut tables = loaded.tables;
        for (folder, entry) in tables.folders.iter_mut().enumerate() {
            let is_asked = asked.map(usize::from) == Some(folder);
            entry.public &= if is_asked { !own } else { !others };
        }
        tables.as_book()
    }

    /// The levels as they are read: for some mutations with the bytes of each
    /// the other way round, or worked out from the history.
    fn read_levels(&self, book: &[u8], history: &[u8], levels: &[u8]) -> Vec<u8> {
        let mut read = levels.to_vec();
        let by_history = match self.mutation {
            Mutation::LowWaterByHistory | Mutation::StandingByHistory => true,
            Mutation::HighByteFirst => false,
            _ => return read,
        };
        if !by_history {
            read.chunks_exact_mut(2).for_each(|entry| entry.swap(0, 1));
        } else if read.len() == LEVELS_BYTES && history.len() == HISTORY_BYTES {
            let given = levels_by_history(&tables_of(book), &set_of(history));
            write_levels(&given, &mut read);
        }
        read
    }

    /// The levels by which a request is judged: for some mutations a start or a
    /// step is judged by other entries.
    fn levels_for(&self, book: &[u8], levels: &mut [u8], request: &[u8]) {
        let tables = tables_of(book);
        let request = match read_record(request) {
            Some(request) if request.parties_declared(&tables) => request,
            _ => return,
        };
        if levels.len() != LEVELS_BYTES {
            return;
        }
        match (self.mutation, request) {
            (Mutation::StartByOnePerson, Request::Start { person, other }) => {
                let starter = entry(levels, person).to_vec();
                entry(levels, other).copy_from_slice(&starter);
            }
            (Mutation::StartTurnedRound, Request::Start { person, other }) => {
                let starter = entry(levels, person).to_vec();
                let started = entry(levels, other).to_vec();
                entry(levels, person).copy_from_slice(&started);
                entry(levels, other).copy_from_slice(&starter);
            }
            (Mutation::StepByFirstLevel, Request::Step { person, .. }) => {
                let first = tables.persons[usize::from(person)].level.number();
                entry(levels, person).copy_from_slice(&first.to_le_bytes());
            }
            _ => {}
        }
    }

    /// What a put with this number leaves in the levels.
    fn stored(
        &self,
        book: &[u8],
        request: &[u8],
        number: u8,
        (before, levels): (&[u8], &mut [u8]),
    ) {
        let tables = tables_of(book);
        let request = match read_record(request) {
            Some(request) if levels.len() == LEVELS_BYTES => request,
            _ => return,
        };
        match (self.mutation, request, number) {
            (Mutation::StepsDoNotLower, Request::Step { .. }, 0)
            | (Mutation::CreateDoesNotLower, Request::Step { step: 0, .. }, 0) => {
                levels.copy_from_slice(before);
            }
            (Mutation::WritesLower, Request::Write { .. }, 0)
            | (Mutation::RefusedReadLowers, Request::Read { .. }, 14 | 16) => {
                lower(&tables, levels, &request, false);
            }
            (Mutation::LowersInForceAlone, _, 0) if tables.mask & LOW_WATER == 0 => {
                levels.copy_from_slice(before);
            }
            (Mutation::MeetsFirstLevel, Request::Read { .. } | Request::Step { .. }, 0) => {
                lower(&tables, levels, &request, true);
            }
            (Mutation::GrantClearsUndeclared, _, 0) => {
                for person in (0..64).filter(|it| !tables.person_declared(*it)) {
                    entry(levels, person).fill(0);
                }
            }
            _ => {}
        }
    }

    /// One mutation looks at the levels' length first.
    fn early(&self, book: &[u8], levels: &[u8]) -> bool {
        let wrong = levels.len() != LEVELS_BYTES && kweldabe::load(book).number == 0;
        self.is(Mutation::TwentyBeforeTen) && wrong
    }
}

impl Monitor for Mutant {
    fn blank(&self, book: &[u8], history: &mut [u8], levels: &mut [u8]) -> u8 {
        let (last, mut before) = (history.last().copied(), levels.to_vec());
        let number = kweldabe::blank(book, history, levels);
        if self.is(Mutation::BlankKeepsAByte) {
            if let (Some(byte), Some(last)) = (history.last_mut(), last) {
                *byte = last;
            }
        }
        if self.is(Mutation::BlankLeavesUndeclared) && number == 0 {
            let tables = tables_of(book);
            for person in (0..64).filter(|it| !tables.person_declared(*it)) {
                entry(levels, person).copy_from_slice(entry(&mut before, person));
            }
        }
        number
    }

    fn load(&self, book: &[u8]) -> Loaded {
        let mut loaded = kweldabe::load(book);
        if self.is(Mutation::OffsetOfNext) && loaded.number == 5 {
            loaded.offset += 1;
        }
        if self.is(Mutation::SixForNineteen) && loaded.number == 19 {
            loaded.number = 6;
        }
        loaded
    }

    fn rest<'a>(&self, book: &'a [u8]) -> &'a [u8] {
        if self.is(Mutation::RestOfRefused) && kweldabe::load(book).number == 8 {
            return &book[book.len() - 1..];
        }
        kweldabe::rest(book)
    }

    fn judge(&self, book: &[u8], history: &[u8], levels: &mut [u8], request: &[u8]) -> u8 {
        if self.early(book, levels) {
            return 20;
        }
        let mut read = self.read_levels(book, history, levels);
        self.levels_for(book, &mut read, request);
        let number = kweldabe::judge(&self.book_for(book, request), history, &read, request);
        if self.is(Mutation::JudgeLowers) {
            kweldabe::put(book, &mut history.to_vec(), levels, request);
        }
        match (self.mutation, number) {
            (Mutation::LowWaterPasses, 15 | 21) => 0,
            (Mutation::StepPassesLowWater, 15 | 21) if request[0] == 19 => {
                let mut tables = tables_of(book);
                tables.mask &= !LOW_WATER;
                kweldabe::judge(&tables.as_book(), history, levels, request)
            }
            _ => Judged {
                book,
                history,
                levels,
                request,
            }
            .mistaken(self.mutation, number),
        }
    }

    fn put(&self, book: &[u8], history: &mut [u8], levels: &mut [u8], request: &[u8]) -> u8 {
        let (before, levels_before) = (history.to_vec(), levels.to_vec());
        let number = kweldabe::put(book, history, levels, request);
        if self.is(Mutation::RefusalRecorded) && number == 17 {
            history[7] ^= 1;
        }
        if self.is(Mutation::GrantNotRecorded) && number == 0 {
            history.copy_from_slice(&before);
        }
        self.stored(book, request, number, (&levels_before, levels));
        match (self.mutation, number) {
            (Mutation::PutAlwaysFifteen, 21) => 15,
            _ => number,
        }
    }

    fn run(
        &self,
        book: &[u8],
        history: &mut [u8],
        levels: &mut [u8],
        requests: &[u8],
        answers: &mut [u8],
    ) -> Ran {
        let before = levels.to_vec();
        let ran = kweldabe::run(book, history, levels, requests, answers);
        let mut ran = ran.expect("short requests");
        if self.is(Mutation::AnswerPastTheLast) && ran.number == 0 {
            if let Some(byte) = answers.get_mut(ran.granted + ran.refused) {
                *byte = 0;
            }
        }
        if self.is(Mutation::RunAlwaysFifteen) && ran.number == 0 {
            let written = &mut answers[..ran.granted + ran.refused];
            let refused = written.iter_mut().filter(|answer| **answer == 21);
            refused.for_each(|answer| *answer = 15);
        }
        if self.is(Mutation::CountsSwapped) {
            std::mem::swap(&mut ran.granted, &mut ran.refused);
        }
        if self.is(Mutation::RunDoesNotLower) {
            levels.copy_from_slice(&before);
        }
        if self.is(Mutation::RefusedRunLowers) && ran.number == 18 {
            kweldabe::put(book, &mut history.to_vec(), levels, requests);
        }
        ran
    }

    fn standing(&self, book: &[u8], history: &[u8], levels: &mut [u8], person: u8) -> Standing {
        let read = match self.mutation {
            Mutation::LowWaterByHistory => levels.to_vec(),
            _ => self.read_levels(book, history, levels),
        };
        let mut found = kweldabe::standing(book, history, &read, person);
        if self.is(Mutation::OneFirmMore) && found.firms == 3 {
            found.firms += 1;
        }
        found
    }
}
