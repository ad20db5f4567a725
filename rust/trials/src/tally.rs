//! What came out, and how often.

use std::fmt::{Display, Formatter, Result};

/// One more than the highest number of a refusal.
const NUMBERS: usize = 37;

/// A count for each number, 0 for no refusal, and for each way to decide a question.
#[derive(Clone, Debug)]
pub struct Tally {
    numbers: [u64; NUMBERS],
    yes: u64,
    no: u64,
}

impl Default for Tally {
    fn default() -> Tally {
        Tally { numbers: [0; NUMBERS], yes: 0, no: 0 }
    }
}

impl Tally {
    /// Counts a number, which must be 0 or one of the paper's.
    pub fn count(&mut self, number: u8) {
        self.numbers[usize::from(number)] += 1;
    }

    /// Counts how a question was decided.
    pub fn decide(&mut self, yes: bool) {
        *(if yes { &mut self.yes } else { &mut self.no }) += 1;
    }

    /// Those of the numbers that were never given.
    pub fn missing(&self, numbers: &[u8]) -> Vec<u8> {
        numbers.iter().copied().filter(|&n| self.numbers[usize::from(n)] == 0).collect()
    }

    /// Those that were given and are not among the numbers.
    pub fn unexpected(&self, numbers: &[u8]) -> Vec<u8> {
        let given = |n: &u8| self.numbers[usize::from(*n)] != 0;
        (0..NUMBERS as u8).filter(given).filter(|n| !numbers.contains(n)).collect()
    }

    /// Whether a question that was asked was always decided in one way.
    pub fn is_one_sided(&self) -> bool {
        (self.yes == 0) != (self.no == 0)
    }
}

impl Display for Tally {
    fn fmt(&self, f: &mut Formatter) -> Result {
        let numbers = self.numbers.iter().enumerate().map(|(n, &count)| (n.to_string(), count));
        let decided = [("yes".to_string(), self.yes), ("no".to_string(), self.no)];
        let reached = numbers.chain(decided).filter(|(_, count)| *count != 0);
        let texts: Vec<String> = reached.map(|(what, count)| format!("{what}: {count}")).collect();
        f.write_str(&texts.join(", "))
    }
}
