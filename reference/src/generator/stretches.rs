//! A scene of reads in few stretches: a stretch is the eight folders whose
//! reads are one byte of a history.

use super::Generator;

impl Generator {
    /// Every person reads two folders of one stretch, four persons in each:
    /// the level of each tells which folders these were, first where low-water
    /// is not in force and then by what it refuses; and once more on other
    /// levels. Then bytes of some persons set at once: one folder of each
    /// stretch, all of them, and none; the level stored is the one before and
    /// then the one that the history gives.
    pub fn few_stretches(&mut self) {
        let book = self.book_of_levels();
        self.load(&book);
        self.blank();
        let (mut reads, mut writes, mut starts) = (Vec::new(), Vec::new(), Vec::new());
        for person in 0..64 {
            for place in self.random.some_below(8, 2) {
                reads.extend([16, person, 8 * (person % 16) + place]);
                writes.extend([17, person, self.random.below(128) as u8]);
                starts.extend([18, person, self.random.below(64) as u8]);
            }
        }
        self.run(128, &reads);
        self.standings_of_everyone();
        self.field(0, 0, 2);
        for requests in [&writes, &starts, &reads] {
            self.run(128, requests);
        }
        self.store_others_for_declared();
        for requests in [&writes, &starts] {
            self.run(128, requests);
        }
        for person in [0, 21, 63] {
            self.bytes_of_reads(person, |generator| 1 << generator.random.below(8));
            self.bytes_of_reads(person, |_| 255);
            self.bytes_of_reads(person, |_| 0);
        }
    }

    /// Sets the sixteen bytes of a person's reads, and looks at the level before
    /// and after it is stored anew.
    fn bytes_of_reads(&mut self, person: u8, value: impl Fn(&mut Generator) -> u8) {
        for place in 0..16 {
            let value = value(self);
            self.byte(16 * usize::from(person) + place, value);
        }
        for _ in 0..2 {
            self.standing(person);
            let folder = self.random.below(128) as u8;
            self.judge(&[17, person, folder]);
            self.store_levels_of_history();
        }
    }
}
