//! Levels (section "Levels", and Point 5 of the later requests for what comparing
//! two of them tells): a rank and a set of compartments.

use crate::places::{lies_in, number, places};

/// What comparing a level that is asked for with a level that is held tells.
#[derive(Clone, Copy, PartialEq, Eq, Debug)]
pub enum Compared {
    /// The rank is at most the other, and every compartment is in the other.
    AtMost,
    /// The rank held is too low, also when a compartment is missing besides.
    RankTooLow,
    /// The rank held suffices, and a compartment is missing.
    CompartmentMissing,
}

/// The low 12 bits name compartments, the high 4 are the rank.
#[derive(Clone, Copy, PartialEq, Eq, Debug)]
pub struct Level {
    rank: u8,
    compartments: [bool; 12],
}

impl Level {
    /// The lowest level is 0.
    pub fn lowest() -> Level {
        Level::from_number(0)
    }

    pub fn from_number(value: u16) -> Level {
        Level {
            rank: (value / 4096) as u8,
            compartments: places(u64::from(value)),
        }
    }

    pub fn number(&self) -> u16 {
        u16::from(self.rank) * 4096 + number(&self.compartments) as u16
    }

    /// Compares this level with one that is held: a is at most b when rank a is
    /// at most rank b and every compartment of a is in b.
    pub fn compare(&self, held: &Level) -> Compared {
        if self.rank > held.rank {
            Compared::RankTooLow
        } else if lies_in(&self.compartments, &held.compartments) {
            Compared::AtMost
        } else {
            Compared::CompartmentMissing
        }
    }

    /// The meet has the smaller rank and the common compartments.
    pub fn meet(&self, other: &Level) -> Level {
        let mut common = [false; 12];
        for (place, inside) in common.iter_mut().enumerate() {
            *inside = self.compartments[place] && other.compartments[place];
        }
        Level {
            rank: self.rank.min(other.rank),
            compartments: common,
        }
    }
}

#[cfg(test)]
mod tests {
    use super::Compared::*;
    use super::*;

    fn at_most(first: &Level, second: &Level) -> bool {
        first.compare(second) == AtMost
    }

    #[test]
    fn every_number_is_a_level() {
        for value in 0..=65535 {
            let level = Level::from_number(value);
            assert_eq!(level.number(), value);
            assert!(at_most(&Level::lowest(), &level));
            assert!(at_most(&level, &Level::from_number(65535)));
        }
    }

    #[test]
    fn ranks_are_not_the_whole_order() {
        let first = Level::from_number(0x1001);
        let second = Level::from_number(0x2002);
        assert_eq!(first.compare(&second), CompartmentMissing);
        assert_eq!(second.compare(&first), RankTooLow);
        assert_eq!(first.compare(&Level::from_number(0x2003)), AtMost);
    }

    #[test]
    fn the_meet_is_the_greatest_level_below_both() {
        let values = [0, 1, 0x1003, 0x2001, 0x2fff, 0xf001, 0xffff];
        for first in values.map(Level::from_number) {
            for second in values.map(Level::from_number) {
                let meet = first.meet(&second);
                assert!(at_most(&meet, &first) && at_most(&meet, &second));
                for below in values.map(Level::from_number) {
                    let below_both = at_most(&below, &first) && at_most(&below, &second);
                    assert_eq!(below_both, at_most(&below, &meet));
                }
            }
        }
    }

    /// Over all ranks and some sets of compartments, reckoned from the numbers.
    #[test]
    fn comparing_tells_three_outcomes() {
        let sets = [0, 1, 2, 3, 0x800, 0x801, 0xffe, 0xfff];
        let levels: Vec<u16> = (0..16)
            .flat_map(|rank| sets.map(|set| rank * 4096 + set))
            .collect();
        for asked in &levels {
            for held in &levels {
                let missing = asked & !held & 0xfff != 0;
                let expected = match (asked / 4096 <= held / 4096, missing) {
                    (false, _) => RankTooLow,
                    (true, true) => CompartmentMissing,
                    (true, false) => AtMost,
                };
                let found = Level::from_number(*asked).compare(&Level::from_number(*held));
                assert_eq!(found, expected, "{asked:#x} {held:#x}");
            }
        }
    }
}
