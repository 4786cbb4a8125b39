//! The tables (section "Rulebook"): what a loaded book declares.

use crate::book;
use crate::level::Level;
use crate::numbers::GRANTED;
use crate::places::{number, places};

pub const FIRMS: usize = 64;
pub const PERSONS: usize = 64;
pub const FOLDERS: usize = 128;
pub const ROLES: usize = 32;
pub const STEPS: usize = 16;

/// The bits of the mask.
pub const WALL_RULE: usize = 0;
pub const LOW_WATER_RULE: usize = 1;
pub const ROLES_RULE: usize = 2;
pub const PIPELINE_RULE: usize = 3;

#[derive(Clone, Copy, PartialEq, Eq, Debug)]
pub struct Firm {
    pub declared: bool,
    /// The conflict class: the firm's class of rivals.
    pub class: u8,
}

#[derive(Clone, Copy, PartialEq, Eq, Debug)]
pub struct Person {
    pub declared: bool,
    /// The first level.
    pub level: Level,
}

#[derive(Clone, Copy, PartialEq, Eq, Debug)]
pub struct Folder {
    pub declared: bool,
    pub firm: u8,
    pub kind: u8,
    pub level: Level,
    /// Marked by a record of kind 7: anybody may open it.
    pub public: bool,
}

#[derive(Clone, Copy, PartialEq, Eq, Debug)]
pub struct Role {
    pub declared: bool,
    pub rights: [bool; 64],
}

#[derive(Clone, PartialEq, Eq, Debug)]
pub struct Tables {
    pub mask: u8,
    pub firms: [Firm; FIRMS],
    pub persons: [Person; PERSONS],
    pub folders: [Folder; FOLDERS],
    pub roles: [Role; ROLES],
    /// The enabling relation: `enables[p][q]` when p enables q.
    pub enables: [[bool; STEPS]; STEPS],
}

impl Tables {
    /// The tables of the empty book, the bytes 1 0 0: undeclared entries are
    /// zero and marked so.
    pub fn empty_book() -> Tables {
        let lowest = Level::lowest();
        Tables {
            mask: 0,
            firms: [Firm {
                declared: false,
                class: 0,
            }; FIRMS],
            persons: [Person {
                declared: false,
                level: lowest,
            }; PERSONS],
            folders: [Folder {
                declared: false,
                firm: 0,
                kind: 0,
                level: lowest,
                public: false,
            }; FOLDERS],
            roles: [Role {
                declared: false,
                rights: [false; 64],
            }; ROLES],
            enables: [[false; STEPS]; STEPS],
        }
    }

    pub fn in_force(&self, rule: usize) -> bool {
        places::<8>(u64::from(self.mask))[rule]
    }

    pub fn firm_declared(&self, firm: u8) -> bool {
        match self.firms.get(usize::from(firm)) {
            Some(entry) => entry.declared,
            None => false,
        }
    }

    /// A person number of 64 or more is undeclared.
    pub fn person_declared(&self, person: u8) -> bool {
        match self.persons.get(usize::from(person)) {
            Some(entry) => entry.declared,
            None => false,
        }
    }

    /// A folder number of 128 or more is undeclared.
    pub fn folder_declared(&self, folder: u8) -> bool {
        match self.folders.get(usize::from(folder)) {
            Some(entry) => entry.declared,
            None => false,
        }
    }

    /// The entry of a declared folder.
    pub fn folder(&self, folder: u8) -> &Folder {
        &self.folders[usize::from(folder)]
    }

    /// The conflict class of the firm of a declared folder.
    pub fn class_of_folder(&self, folder: u8) -> u8 {
        self.firms[usize::from(self.folder(folder).firm)].class
    }

    /// The tables with no folder public.
    pub fn without_marks(&self) -> Tables {
        let mut unmarked = self.clone();
        for folder in &mut unmarked.folders {
            folder.public = false;
        }
        unmarked
    }

    /// A book that declares what the tables hold: the mask, firms before
    /// folders, folders before their marks, and the end record.
    pub fn as_book(&self) -> Vec<u8> {
        let mut bytes = vec![1, self.mask];
        for (firm, entry) in self.firms.iter().enumerate() {
            if entry.declared {
                bytes.extend([2, firm as u8, entry.class]);
            }
        }
        for (person, entry) in self.persons.iter().enumerate() {
            if entry.declared {
                bytes.extend([3, person as u8]);
                bytes.extend(entry.level.number().to_le_bytes());
            }
        }
        for (folder, entry) in self.folders.iter().enumerate() {
            if entry.declared {
                bytes.extend([4, folder as u8, entry.firm, entry.kind]);
                bytes.extend(entry.level.number().to_le_bytes());
            }
        }
        for (folder, entry) in self.folders.iter().enumerate() {
            if entry.public {
                bytes.extend([7, folder as u8]);
            }
        }
        for (role, entry) in self.roles.iter().enumerate() {
            if entry.declared {
                bytes.extend([5, role as u8]);
                bytes.extend(number(&entry.rights).to_le_bytes());
            }
        }
        for (first, enabled) in self.enables.iter().enumerate() {
            for (second, inside) in enabled.iter().enumerate() {
                if *inside {
                    bytes.extend([6, first as u8, second as u8]);
                }
            }
        }
        bytes.push(0);
        bytes
    }
}

/// Whether some load gives these tables (number 11 otherwise). If any book
/// loads to them, then the book written from them does: it has the same
/// records in another order, with the firms before the folders and these
/// before their marks. So it is enough to load that one book and to compare.
pub fn given(tables: &Tables) -> bool {
    let loaded = book::load(&tables.as_book());
    loaded.number == GRANTED && loaded.tables == *tables
}
