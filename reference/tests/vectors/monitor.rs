//! A monitor that reads the levels held ready, or the two numbers of low-water,
//! in its own way. It has a level buffer of its own and takes all else as it is.

use crate::clearance;
use crate::past::persons_of;
use crate::under;
use crate::walk::{each_in_run, fronts};
use reference::calls::answers_due;
use reference::command::{Command, Lengths};
use reference::play::Player;
use reference::request::read_record;
use reference::rules::{current_level, firms_opened, rights_used};
use reference::{given, Level, Request, State, Tables};

/// The right reading of Points 4 and 5, and wrong ones: first of the levels held
/// ready, then, from `MissingBeforeRank` on, of the numbers of low-water.
#[derive(Clone, Copy, PartialEq, Eq, PartialOrd, Ord, Debug)]
pub enum Reading {
    Right,
    WriteLowers,
    StepDoesNotLower,
    RefusedReadLowers,
    RefusedStepLowers,
    LowersInForceAlone,
    MeetsFirstLevel,
    BlankLeavesUndeclared,
    GrantClearsUndeclared,
    ElevenBeforeTwenty,
    TwentyBeforeTen,
    StartByOnePerson,
    StartTurnedRound,
    LowWaterByHistory,
    StandingByHistory,
    HighByteFirst,
    JudgeLowers,
    RefusedRunLowers,
    MissingBeforeRank,
    NumbersExchanged,
    AlwaysFifteen,
    AlwaysTwentyOne,
    MissingGrants,
    StartNumberTurnedRound,
    EqualRankTooLow,
    WriteKeepsFifteen,
    StartKeepsFifteen,
    StepKeepsFifteen,
    TwentyOneBeforeWall,
    TwentyOneAfterOthers,
}

use Reading::*;

/// A readable request, with what no reading of the levels changes: its number
/// where low-water is not in force, and the levels that the history gives.
pub struct Asked {
    request: Request,
    others: u8,
    by_history: Vec<(u8, Level)>,
}

/// What a call does.
pub enum Sort {
    Blank,
    Judge,
    Put,
    /// With enough answer bytes or without.
    Run(bool),
    /// The person, if declared, the level that the history gives, and the
    /// rights and firms.
    Standing(Option<(u8, Level, [usize; 2])>),
}

/// A call of the file with the lengths that it is lent.
pub struct Call {
    pub name: &'static str,
    tables: Tables,
    lengths: [usize; 2],
    given: bool,
    sort: Sort,
    asked: Vec<Asked>,
    /// Whether an unreadable record ends the requests.
    cut: bool,
}

/// What a call prints, but for the digests of the history and of the answers:
/// its numbers, and the level buffer where a digest of it is printed.
#[derive(PartialEq, Eq, Debug)]
pub struct Printed {
    pub numbers: Vec<usize>,
    pub answers: Vec<u8>,
    pub levels: Option<Vec<u8>>,
}

fn asked(tables: &Tables, state: &State, request: &Request) -> Asked {
    let persons = persons_of(request).into_iter();
    let declared = persons.filter(|it| tables.person_declared(*it));
    Asked {
        request: *request,
        others: under(tables.mask & !2, tables, state, request),
        by_history: declared
            .map(|person| (person, current_level(tables, &state.history, person)))
            .collect(),
    }
}

impl Call {
    /// The call of a command, if it is one that is lent levels.
    pub fn of(player: &Player, command: &Command) -> Option<Call> {
        let (name, lent, sort, requests) = match command {
            Command::Blank { lent } => ("blank", lent, Sort::Blank, &[][..]),
            Command::Judge { lent, request } => ("judge", lent, Sort::Judge, &request[..]),
            Command::Put { lent, request } => ("put", lent, Sort::Put, &request[..]),
            Command::Run {
                lent,
                answers,
                requests,
            } => {
                let room = usize::from(*answers).min(player.answers.len());
                let enough = room >= answers_due(requests);
                ("run", lent, Sort::Run(enough), &requests[..])
            }
            Command::Standing { lent, .. } => ("standing", lent, Sort::Standing(None), &[][..]),
            _ => return None,
        };
        let mut call = Call::without_requests(player, lent, (name, sort));
        if call.given && call.lengths == [18_944, 128] {
            call.add_requests(player, lent, requests);
            if let Command::Standing { lent, person } = command {
                call.sort = Sort::Standing(standing_of(player, lent, *person));
            }
        }
        Some(call)
    }

    fn without_requests(player: &Player, lent: &Lengths, named: (&'static str, Sort)) -> Call {
        let (history, levels) = fronts(player, lent);
        Call {
            name: named.0,
            tables: player.tables.clone(),
            lengths: [history.len(), levels.len()],
            given: given(&player.tables),
            sort: named.1,
            asked: Vec::new(),
            cut: false,
        }
    }

    fn add_requests(&mut self, player: &Player, lent: &Lengths, requests: &[u8]) {
        let (history, levels) = fronts(player, lent);
        let state = State::of(history, levels);
        let tables = &player.tables;
        if let Sort::Run(_) = self.sort {
            each_in_run(tables, state, requests, &mut |tables, state, request| {
                self.asked.push(asked(tables, state, request));
            });
            self.cut = answers_due(requests) > self.asked.len();
        } else {
            let request = read_record(requests);
            self.cut = request.is_none();
            self.asked = request.iter().map(|it| asked(tables, &state, it)).collect();
        }
    }
}

fn standing_of(player: &Player, lent: &Lengths, person: u8) -> Option<(u8, Level, [usize; 2])> {
    let (history, levels) = fronts(player, lent);
    let (tables, history) = (&player.tables, State::of(history, levels).history);
    if !tables.person_declared(person) {
        return None;
    }
    let rights = rights_used(tables, &history, person);
    let rights = rights.iter().filter(|used| **used).count();
    let firms = firms_opened(tables, &history, person).len();
    let level = current_level(tables, &history, person);
    Some((person, level, [rights, firms]))
}

pub struct Monitor {
    pub reading: Reading,
    pub levels: Vec<u8>,
}

impl Monitor {
    /// The first of 10, 20 and 11 whose cause is there.
    fn check(&self, call: &Call) -> u8 {
        let order = match self.reading {
            ElevenBeforeTwenty => [10, 11, 20],
            TwentyBeforeTen => [20, 10, 11],
            _ => [10, 20, 11],
        };
        let there = |number: &u8| match number {
            10 => call.lengths[0] != 18_944,
            20 => call.lengths[1] != 128,
            _ => !call.given,
        };
        order.into_iter().find(there).unwrap_or(0)
    }

    /// The places of the low and of the high byte of a person's level.
    fn places(&self, person: u8) -> [usize; 2] {
        let first = 2 * usize::from(person);
        match self.reading {
            HighByteFirst => [first + 1, first],
            _ => [first, first + 1],
        }
    }

    fn level(&self, person: u8) -> Level {
        let bytes = self.places(person).map(|place| self.levels[place]);
        Level::from_number(u16::from_le_bytes(bytes))
    }

    fn store(&mut self, person: u8, level: Level) {
        let bytes = level.number().to_le_bytes();
        for (place, byte) in self.places(person).into_iter().zip(bytes) {
            self.levels[place] = byte;
        }
    }

    /// 0 where low-water grants, 15 or 21.
    fn low_water(&self, tables: &Tables, asked: &Asked) -> u8 {
        let level = |person: u8| match self.reading {
            LowWaterByHistory => {
                let found = asked.by_history.iter().find(|(it, _)| *it == person);
                found.unwrap().1
            }
            _ => self.level(person),
        };
        match asked.request {
            Request::Read { .. } => 0,
            Request::Write { person, folder } | Request::Step { person, folder, .. } => {
                let levels = [tables.folder(folder).level, level(person)];
                clearance::number(self.reading, &asked.request, levels)
            }
            Request::Start { person, other } => {
                let (started, starter) = match self.reading {
                    StartByOnePerson => (person, person),
                    StartTurnedRound => (person, other),
                    _ => (other, person),
                };
                let levels = [level(started), level(starter)];
                clearance::number(self.reading, &asked.request, levels)
            }
        }
    }

    /// The wall before the levels, and the other rules after them.
    fn number(&self, tables: &Tables, asked: &Asked) -> u8 {
        if tables.mask & 2 == 0 || asked.others == 13 {
            return asked.others;
        }
        match (self.reading, self.low_water(tables, asked), asked.others) {
            (TwentyOneBeforeWall, 21, 14) => 21,
            (TwentyOneAfterOthers, 21, others @ (16 | 17)) => others,
            (_, 0, others) | (_, _, others @ 14) => others,
            (_, refused, _) => refused,
        }
    }

    /// Stores what a request with this number leaves.
    fn lower(&mut self, tables: &Tables, request: &Request, number: u8) {
        let granted = number == 0;
        let in_force = tables.mask & 2 != 0;
        let lowers = match (self.reading, request) {
            (WriteLowers, Request::Write { .. }) => granted,
            (StepDoesNotLower, Request::Step { .. }) => false,
            (RefusedReadLowers, Request::Read { .. }) => number != 13,
            (RefusedStepLowers, Request::Step { .. }) => number != 13,
            (_, Request::Write { .. } | Request::Start { .. }) => false,
            (LowersInForceAlone, _) => granted && in_force,
            _ => granted,
        };
        let person = request.person();
        if let (true, Some(folder)) = (lowers, request.folder_accessed()) {
            let before = match self.reading {
                MeetsFirstLevel => tables.persons[usize::from(person)].level,
                _ => self.level(person),
            };
            self.store(person, before.meet(&tables.folder(folder).level));
        }
        if granted && self.reading == GrantClearsUndeclared {
            self.store_undeclared(tables, Level::lowest());
        }
    }

    fn store_undeclared(&mut self, tables: &Tables, level: Level) {
        for person in (0..64).filter(|it| !tables.person_declared(*it)) {
            self.store(person, level);
        }
    }

    fn blank(&mut self, tables: &Tables) {
        for person in (0..64).filter(|it| tables.person_declared(*it)) {
            self.store(person, tables.persons[usize::from(person)].level);
        }
        if self.reading != BlankLeavesUndeclared {
            self.store_undeclared(tables, Level::lowest());
        }
    }

    /// The answers to the requests, put one after another.
    fn put_all(&mut self, call: &Call) -> Vec<u8> {
        let mut answers = Vec::new();
        for asked in &call.asked {
            let number = self.number(&call.tables, asked);
            self.lower(&call.tables, &asked.request, number);
            answers.push(number);
        }
        answers.extend(call.cut.then_some(12));
        answers
    }

    fn judge(&mut self, call: &Call) -> u8 {
        let before = self.levels.clone();
        let number = self.put_all(call)[0];
        if self.reading != JudgeLowers {
            self.levels = before;
        }
        number
    }

    /// A run's own number, the granted and the refused requests, and the
    /// answers.
    fn run(&mut self, call: &Call, own: u8, enough: bool) -> (Vec<usize>, Vec<u8>) {
        if own != 0 || !enough {
            let own = if own == 0 { 18 } else { own };
            if self.reading == RefusedRunLowers {
                self.put_all(call);
            }
            return (vec![usize::from(own), 0, 0], Vec::new());
        }
        let answers = self.put_all(call);
        let granted = answers.iter().filter(|answer| **answer == 0).count();
        (vec![0, granted, answers.len() - granted], answers)
    }

    fn standing(&self, own: u8, found: &Option<(u8, Level, [usize; 2])>) -> Vec<usize> {
        match (own, found) {
            (0, None) => vec![13, 0, 0, 0],
            (0, Some((person, by_history, [rights, firms]))) => {
                let level = match self.reading {
                    StandingByHistory => *by_history,
                    _ => self.level(*person),
                };
                vec![0, usize::from(level.number()), *rights, *firms]
            }
            _ => vec![usize::from(own), 0, 0, 0],
        }
    }

    pub fn follow(&mut self, call: &Call) -> Printed {
        let own = self.check(call);
        let (mut numbers, mut answers) = (vec![usize::from(own)], Vec::new());
        match &call.sort {
            Sort::Blank if own == 0 => self.blank(&call.tables),
            Sort::Judge if own == 0 => numbers = vec![usize::from(self.judge(call))],
            Sort::Put if own == 0 => numbers = vec![usize::from(self.put_all(call)[0])],
            Sort::Run(enough) => (numbers, answers) = self.run(call, own, *enough),
            Sort::Standing(found) => numbers = self.standing(own, found),
            _ => {}
        }
        let silent = matches!(call.sort, Sort::Judge | Sort::Standing(_));
        Printed {
            numbers,
            answers,
            levels: (!silent).then(|| self.levels.clone()),
        }
    }
}
