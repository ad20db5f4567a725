//! The proved core compared with the model: the same inputs to both, and every part of the answers,
//! every field of the tables and every byte of the lent buffers the same.

#![forbid(unsafe_code)]

pub mod compare;
pub mod convert;
pub mod inputs;
pub mod joins;
pub mod lent;
pub mod rng;
pub mod taken;
pub mod tally;

use rng::Rng;
use tally::Tally;

/// One comparison on inputs of its own making, to be repeated.
pub struct Trial {
    /// What is compared.
    pub name: &'static str,
    /// Makes the inputs, compares, and counts the numbers that were given.
    pub run: fn(&mut Rng, &mut Tally),
    /// Every number that it can give, 0 for none included.
    pub numbers: &'static [u8],
}

/// All of them.
pub const TRIALS: [Trial; 15] = [
    Trial { name: "read", run: compare::lines::read, numbers: &[0, 4, 5, 6, 7, 8, 9] },
    Trial { name: "write", run: compare::lines::write, numbers: &[0, 2, 24, 25] },
    Trial { name: "feed", run: compare::feeding::feed, numbers: &[0, 1, 4] },
    Trial { name: "same name", run: compare::texts::same_name, numbers: &[] },
    Trial { name: "match", run: compare::texts::matches, numbers: &[0, 23] },
    Trial { name: "greater key", run: compare::texts::greater_key, numbers: &[] },
    Trial { name: "merge", run: compare::tables::merge, numbers: &[0, 1, 16, 22, 27] },
    Trial { name: "banned", run: compare::bans::banned, numbers: &[0, 1, 16, 19, 23] },
    Trial { name: "register", run: compare::tables::register, numbers: &[0, 1, 3] },
    Trial { name: "log", run: compare::log::log, numbers: &[0, 3, 4, 25] },
    Trial { name: "read log", run: compare::log::read_log, numbers: &[0, 28, 29, 30, 31] },
    Trial { name: "take", run: compare::taking::take, numbers: TAKING },
    Trial { name: "take many", run: compare::taking::take_many, numbers: WITH_GOOD_TABLE },
    Trial { name: "replay", run: compare::replaying::replay, numbers: REPLAYING },
    Trial { name: "demand 3", run: joins::trial, numbers: AT_THE_START },
];

/// The numbers that taking a line can give: all up to 22 but 10 and 17, those of masks and those of
/// modes.
const TAKING: &[u8] = &[
    0, 1, 2, 3, 4, 5, 6, 7, 8, 9, 11, 12, 13, 14, 15, 16, 18, 19, 20, 21, 22, 26, 27, 32, 33, 34,
    35, 36,
];

/// Those of them with a table that is well formed.
const WITH_GOOD_TABLE: &[u8] = &[
    0, 2, 3, 4, 5, 6, 7, 8, 9, 11, 12, 13, 14, 15, 16, 18, 19, 20, 21, 22, 26, 27, 32, 33, 34, 35,
    36,
];

/// The numbers that a replay can stop with: those of lines that the log's records can hold, on links
/// that are all registered, and the log's own.
const REPLAYING: &[u8] = &[
    0, 5, 6, 7, 8, 9, 11, 12, 13, 14, 15, 16, 18, 19, 20, 21, 22, 26, 27, 28, 29, 30, 31, 32, 33,
    34, 35, 36,
];

/// Those of taking a line that a join can have with an empty table.
const AT_THE_START: &[u8] =
    &[0, 2, 3, 4, 5, 6, 7, 8, 9, 12, 13, 14, 15, 16, 18, 32, 33, 34, 35, 36];

impl Trial {
    /// Runs the trial once for each seed, and says which one failed.
    pub fn run_seeds(&self, seeds: std::ops::Range<u64>, tally: &mut Tally) {
        for seed in seeds {
            let _told = Failing { name: self.name, seed };
            (self.run)(&mut Rng::new(seed), tally);
        }
    }
}

/// Tells the trial and the seed if a comparison fails while this lives.
struct Failing {
    name: &'static str,
    seed: u64,
}

impl Drop for Failing {
    fn drop(&mut self) {
        if std::thread::panicking() {
            eprintln!("trial '{}' failed with the seed {}", self.name, self.seed);
        }
    }
}
