//! Random request records: mostly whole, of declared parties.

use reference::random::Random;
use reference::rules::steps_done;
use reference::{Request, State, Tables};

/// The kinds of requests, each as often as it comes up.
const KINDS: &[u8] = &[16, 16, 16, 17, 17, 18, 19, 19, 19, 19];

/// Without reads steps alone lower.
const NO_READS: &[u8] = &[17, 17, 17, 18, 19, 19, 19, 19, 19, 19];

/// The kinds of jobs of which a plan is wanted.
const JOBS: &[u8] = &[16, 17, 19, 19, 19, 19];

/// Parties for jobs, and the tables and the state by which a step is chosen.
pub type Busy<'a> = (&'a Parties, &'a Tables, &'a State);

pub struct Parties {
    persons: Vec<u8>,
    folders: Vec<u8>,
    kinds: &'static [u8],
}

impl Parties {
    /// The declared parties; in some scenes none of them reads.
    pub fn of(random: &mut Random, tables: &Tables) -> Parties {
        Parties {
            persons: (0..64).filter(|n| tables.person_declared(*n)).collect(),
            folders: (0..128).filter(|n| tables.folder_declared(*n)).collect(),
            kinds: random.pick(&[KINDS, KINDS, NO_READS]),
        }
    }

    pub fn person(&self, random: &mut Random) -> u8 {
        mostly_of(random, &self.persons)
    }

    /// The bytes of one record, now and then with more bytes, cut or unknown.
    pub fn request(&self, random: &mut Random) -> Vec<u8> {
        let mut request = self.record(random);
        match random.below(40) {
            0 => request.truncate(random.below(request.len())),
            1 => request[0] = random.byte(),
            2 => request.push(random.byte()),
            _ => {}
        }
        request
    }

    /// The bytes of a run: whole records, and perhaps another at the end.
    pub fn requests(&self, random: &mut Random, count: usize) -> Vec<u8> {
        let mut requests = Vec::new();
        for _ in 0..count {
            requests.extend(self.record(random));
        }
        if random.chance(20) {
            requests.extend(self.request(random));
        }
        requests
    }

    /// Few of the parties, with so many folders if there are as many.
    pub fn busy(&self, random: &mut Random, folders: usize) -> Parties {
        let mut few = |numbers: &[u8], count: usize| {
            let mut numbers = numbers.to_vec();
            random.shuffle(&mut numbers);
            numbers.truncate(count);
            numbers
        };
        Parties {
            persons: few(&self.persons, 1 + folders / 2),
            folders: few(&self.folders, folders),
            kinds: self.kinds,
        }
    }

    /// A read, a write or a step. With busy parties it is mostly of these, and a
    /// step is mostly one that a step done there enables.
    pub fn job(&self, random: &mut Random, busy: Option<Busy>) -> Request {
        let parties = match busy {
            Some((few, ..)) if random.chance(85) => few,
            _ => self,
        };
        let person = some_of(random, &parties.persons);
        let folder = some_of(random, &parties.folders);
        match (random.pick(JOBS), busy) {
            (16, _) => Request::Read { person, folder },
            (17, _) => Request::Write { person, folder },
            (_, busy) => Request::Step {
                person,
                step: match busy {
                    Some((_, tables, state)) if random.chance(90) => {
                        next_step(random, tables, state, folder)
                    }
                    _ => some_step(random),
                },
                folder,
            },
        }
    }

    fn record(&self, random: &mut Random) -> Vec<u8> {
        let person = self.person(random);
        let folder = mostly_of(random, &self.folders);
        match random.pick(self.kinds) {
            18 => vec![18, person, self.person(random)],
            19 => vec![19, person, some_step(random), folder],
            kind => vec![kind, person, folder],
        }
    }
}

/// Often one of the first steps, which a pipeline grants most.
fn some_step(random: &mut Random) -> u8 {
    let limit = random.pick(&[1, 3, 17, 17]);
    random.below(limit) as u8
}

/// A step that some step done on the folder enables; create if none was done.
fn next_step(random: &mut Random, tables: &Tables, state: &State, folder: u8) -> u8 {
    let done: Vec<usize> = steps_done(tables, &state.history, folder)
        .into_iter()
        .collect();
    if done.is_empty() {
        return 0;
    }
    let enabled = tables.enables[random.pick(&done)];
    let first = random.below(16);
    let next = (first..first + 16).find(|step| enabled[step % 16]);
    (next.unwrap_or(first) % 16) as u8
}

/// One of these, or any number if there are none.
fn some_of(random: &mut Random, declared: &[u8]) -> u8 {
    match declared {
        [] => random.byte(),
        _ => random.pick(declared),
    }
}

fn mostly_of(random: &mut Random, declared: &[u8]) -> u8 {
    if declared.is_empty() || random.chance(3) {
        random.byte()
    } else {
        random.pick(declared)
    }
}
