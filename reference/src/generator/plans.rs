//! Plans of books for the files of calls.

use crate::random::Random;

/// How much a book declares.
#[derive(Clone, Copy)]
pub struct Plan {
    pub mask: u8,
    pub firms: usize,
    pub classes: usize,
    pub persons: usize,
    pub folders: usize,
    /// How many levels folders have in a falling row, one of these.
    pub row: &'static [usize],
    /// How many folders in a hundred are public.
    pub public: usize,
    pub roles: usize,
    /// How many rights in a hundred a role has, one of these for each role.
    pub rights: &'static [usize],
    pub steps: usize,
}

/// Wide roles, so that much is granted, and some narrow ones.
const WIDE_AND_NARROW: &[usize] = &[97, 97, 90, 90, 70, 40, 10];

/// Short rows of levels, by which few requests are refused, and the longest.
const ROWS: &[usize] = &[1, 2, 3, LONGEST_ROW];

/// Beside a row of this length two levels are at random.
pub const LONGEST_ROW: usize = 6;

/// Shares of public folders: few, some or many.
const PUBLIC: &[usize] = &[15, 30, 45];

/// Roles that refuse much.
const NARROW: &[usize] = &[85, 70, 50];

impl Plan {
    pub fn small(random: &mut Random, mask: u8) -> Plan {
        Plan {
            mask,
            firms: random.between(2, 6),
            classes: random.between(1, 4),
            persons: random.between(2, 6),
            folders: random.between(4, 10),
            row: ROWS,
            public: random.pick(PUBLIC),
            roles: random.between(1, 4),
            rights: WIDE_AND_NARROW,
            steps: random.between(3, 8),
        }
    }

    pub fn middle(random: &mut Random, mask: u8) -> Plan {
        Plan {
            mask,
            firms: random.between(8, 24),
            classes: random.between(4, 14),
            persons: random.between(6, 20),
            folders: random.between(16, 48),
            row: ROWS,
            public: random.pick(PUBLIC),
            roles: random.between(3, 10),
            rights: WIDE_AND_NARROW,
            steps: random.between(6, 12),
        }
    }

    /// Many folders of few firms, and narrow roles.
    pub fn narrow_roles(random: &mut Random, mask: u8) -> Plan {
        Plan {
            firms: 4,
            classes: 4,
            persons: 12,
            folders: 20,
            roles: random.between(1, 4),
            rights: NARROW,
            ..Plan::middle(random, mask)
        }
    }

    /// Few persons and folders of many levels, and little else that refuses.
    pub fn many_levels(random: &mut Random, mask: u8) -> Plan {
        Plan {
            firms: 4,
            classes: 4,
            persons: random.between(2, 4),
            folders: 8,
            row: &[LONGEST_ROW],
            rights: &[97],
            ..Plan::small(random, mask)
        }
    }

    /// Every number declared.
    pub fn full(mask: u8) -> Plan {
        Plan {
            mask,
            firms: 64,
            classes: 32,
            persons: 64,
            folders: 128,
            row: ROWS,
            public: 30,
            roles: 32,
            rights: WIDE_AND_NARROW,
            steps: 16,
        }
    }
}
