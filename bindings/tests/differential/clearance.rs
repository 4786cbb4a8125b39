//! Mistakes in the two numbers of low-water: 15 for the rank, 21 for a
//! compartment.

use crate::mutant::Mutation;
use reference::request::read_record;
use reference::{Request, Tables};

/// What is lent to a call that judges.
pub struct Judged<'a> {
    pub book: &'a [u8],
    pub history: &'a [u8],
    pub levels: &'a [u8],
    pub request: &'a [u8],
}

/// The level that is asked for and the one that is held, where low-water
/// compares two.
fn compared(tables: &Tables, levels: &[u8], request: &Request) -> Option<[u16; 2]> {
    let stored = |person: u8| {
        let at = 2 * usize::from(person);
        u16::from_le_bytes([levels[at], levels[at + 1]])
    };
    match *request {
        Request::Read { .. } => None,
        Request::Write { person, folder } | Request::Step { person, folder, .. } => {
            Some([tables.folder(folder).level.number(), stored(person)])
        }
        Request::Start { person, other } => Some([stored(other), stored(person)]),
    }
}

impl Judged<'_> {
    /// The number where low-water is not in force.
    fn without_low_water(&self, tables: &Tables) -> u8 {
        let mut without = tables.clone();
        without.mask &= !2;
        kweldabe::judge(&without.as_book(), self.history, self.levels, self.request)
    }

    /// The number that a mistaken judge gives in the place of this one.
    pub fn mistaken(&self, mutation: Mutation, number: u8) -> u8 {
        let tables = reference::load(self.book).tables;
        let request = match read_record(self.request) {
            Some(request) if [14, 15, 21].contains(&number) => request,
            _ => return number,
        };
        let Some([asked, held]) = compared(&tables, self.levels, &request) else {
            return number;
        };
        let [rank, rank_held] = [asked >> 12, held >> 12];
        let missing = asked & !held & 0xfff != 0;
        match (mutation, request, number) {
            (Mutation::MissingBeforeRank, _, 15) if missing => 21,
            (Mutation::NumbersExchanged, _, 15) => 21,
            (Mutation::NumbersExchanged | Mutation::AlwaysFifteen, _, 21) => 15,
            (Mutation::MissingGrants, _, 21) => self.without_low_water(&tables),
            (Mutation::StartNumberTurnedRound, Request::Start { .. }, 15 | 21) => {
                [21, 15][usize::from(rank_held > rank)]
            }
            (Mutation::EqualRankTooLow, _, 21) if rank == rank_held => 15,
            (Mutation::WriteKeepsFifteen, Request::Write { .. }, 21)
            | (Mutation::StartKeepsFifteen, Request::Start { .. }, 21)
            | (Mutation::StepKeepsFifteen, Request::Step { .. }, 21) => 15,
            (Mutation::TwentyOneBeforeWall, _, 14) if rank <= rank_held && missing => {
                [14, 21][usize::from(tables.mask & 2 != 0)]
            }
            (Mutation::TwentyOneAfterOthers, _, 21) => match self.without_low_water(&tables) {
                0 => 21,
                others => others,
            },
            _ => number,
        }
    }
}
