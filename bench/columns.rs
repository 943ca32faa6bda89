//! The columns of the tables: which events come, and of how many tasks.
use crate::rule::Run;

const SEED: u64 = 7;
const RULES: [&str; 3] = ["random", "round robin", "one tick"];

#[derive(Clone, Copy)]
pub struct Column {
    tasks: u64,
    rule: u64,
}

impl Column {
    pub fn name(&self) -> String {
        format!("{}, {} task{}", RULES[self.rule as usize - 1], self.tasks, if self.tasks == 1 { "" } else { "s" })
    }

    /// The run number `index` of this column: by the random rule another one for each index.
    pub fn run(&self, count: u64, index: u64) -> Run {
        Run { tasks: self.tasks, rule: self.rule, count, seed: SEED + index }
    }

    /// As many events as fill an input of the listing.
    pub fn listed(&self) -> u64 {
        (65_536 - 1 - 16 * self.tasks) / 20
    }
}

/// Those that are timed.
pub fn timed() -> Vec<Column> {
    [(16, 1), (1, 1), (16, 2), (1, 2), (16, 3)].map(|(tasks, rule)| Column { tasks, rule }).to_vec()
}

/// Those that are compared.
pub fn compared() -> Vec<Column> {
    [1, 2, 3].iter().flat_map(|&rule| [16, 8, 4, 1].map(|tasks| Column { tasks, rule })).collect()
}
