//! A scene of the two numbers of low-water: rank or compartment.

use super::Generator;
use crate::level::Level;
use crate::marked;

/// For each kind that low-water judges: a compartment is missing, the rank is too
/// low (for write and step with a compartment missing besides, and alone), and
/// neither.
const REQUESTS: [&[u8]; 11] = [
    &[17, 0, 0],
    &[17, 0, 1],
    &[17, 0, 2],
    &[17, 1, 0],
    &[18, 0, 1],
    &[18, 1, 0],
    &[18, 1, 1],
    &[19, 0, 5, 0],
    &[19, 0, 5, 1],
    &[19, 0, 5, 2],
    &[19, 1, 0, 0],
];

/// The rank held minus the rank asked for, plus 1; and the compartment that is
/// missing: none, or 1, which every folder's level has.
const NEAR: [(u16, u16); 5] = [(0, 0), (0, 1), (1, 1), (2, 1), (1, 0)];

impl Generator {
    /// The worked case as a run, as judged requests and as puts; the same
    /// requests under every mask: where roles are in force, none is declared,
    /// and where the pipeline is, no pair.
    pub fn rank_or_compartment(&mut self) {
        self.load(&marked::CLEARANCE_BOOK);
        self.blank();
        self.fill(99);
        self.run(5, &marked::CLEARANCE_REQUESTS);
        for record in marked::CLEARANCE_REQUESTS.chunks(3) {
            self.judge(record);
            self.put(record);
        }
        for mask in 0..16 {
            self.field(0, 0, mask);
            for record in REQUESTS {
                self.judge(record);
            }
        }
        self.field(0, 0, 2);
        for record in REQUESTS {
            self.put(record);
        }
        self.blank();
        self.run(11, &REQUESTS.concat());
        for folder in 0..3 {
            for (above, missing) in NEAR {
                self.levels_near_each_other(folder, above, missing);
            }
        }
    }

    /// A write, a start and a step that compare the same two levels, by each
    /// call. Person 1 is at the level of the folder. Person 0 is at one near it,
    /// with other compartments besides.
    fn levels_near_each_other(&mut self, folder: u8, above: u16, missing: u16) {
        let asked = self.player.tables.folder(folder).level;
        let others = self.random.number() as u16 & 0xffc;
        let compartments = (asked.number() & 0xfff | others) & !missing;
        let rank = asked.number() / 4096 + above - 1;
        let held = Level::from_number(rank * 4096 + compartments);
        let step = self.random.below(16) as u8;
        let records = [
            vec![17, 0, folder],
            vec![18, 0, 1],
            vec![19, 0, step, folder],
        ];
        self.store_level(0, held);
        self.store_level(1, asked);
        for record in &records {
            self.judge(record);
            self.put(record);
        }
        self.store_level(0, held);
        self.run(3, &records.concat());
    }
}
