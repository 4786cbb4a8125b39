//! Requests taken apart with no jump on their kind: each kind has an entry of the
//! numbers by which its record and its bit in a history are found.

/// How a kind of request stands in its record and in a history.
pub struct Kind {
    /// The bits that are set only if something is out of range.
    outside: u32,
    /// Where the number of the folder, or of the person to be started, begins.
    at: u32,
    places: u32,
    /// The bits of a step's number; none for the other kinds.
    pub steps: u32,
    /// The first target, and the first right.
    pub first: usize,
    rights: u32,
    /// The index of the first bit, and by how many bits persons and folders are
    /// shifted.
    base: usize,
    persons: u32,
    folders: u32,
    /// All bits where low-water asks about the level, and where a grant lowers the
    /// person.
    pub needs: u32,
    pub lowers: u32,
}

const READ: Kind = Kind {
    outside: 0x0080_c000,
    at: 16,
    places: 127,
    steps: 0,
    first: 0,
    rights: 0,
    base: 0,
    persons: 7,
    folders: 0,
    needs: 0,
    lowers: !0,
};

const WRITE: Kind = Kind {
    rights: 16,
    base: 8192,
    needs: !0,
    lowers: 0,
    ..READ
};

const START: Kind = Kind {
    outside: 0x00c0_c000,
    places: 63,
    first: 128,
    rights: 32,
    base: 16384,
    persons: 6,
    ..WRITE
};

const STEP: Kind = Kind {
    outside: 0x80f0_c000,
    at: 24,
    steps: 15,
    rights: 48,
    base: 20480,
    persons: 0,
    folders: 10,
    needs: !0,
    ..READ
};

static KINDS: [Kind; 4] = [READ, WRITE, START, STEP];

/// A request, with every number brought into range: outside tells whether one
/// was not. The number of a step is 0 for the other kinds.
pub struct Request {
    pub kind: &'static Kind,
    pub outside: u32,
    pub s: usize,
    pub p: u32,
    pub place: usize,
}

impl Request {
    /// The request of a whole record. The last of the four bytes is no part of a
    /// record of three.
    #[inline(always)]
    pub fn of(record: u32) -> Request {
        let kind = &KINDS[record as usize % 4];
        Request {
            kind,
            outside: u32::from(record & kind.outside != 0),
            s: (record >> 8) as usize % 64,
            p: record >> 16 & kind.steps,
            place: (record >> kind.at & kind.places) as usize,
        }
    }

    /// The right of the request. Persons are targets of kind 0, and a step's right
    /// does not depend on the kind of its folder.
    #[inline(always)]
    pub fn right(&self, folder_kind: u8) -> usize {
        let offset = self.p | u32::from(folder_kind) & !self.kind.steps;
        (self.kind.rights | offset) as usize % 64
    }

    /// The index of the request's bit in a history.
    #[inline(always)]
    pub fn index(&self) -> usize {
        let Kind {
            base,
            persons,
            folders,
            ..
        } = *self.kind;
        base + (self.s << persons) + (self.place << folders) + 64 * self.p as usize
    }
}
