//! What is compared and timed: groups of works that must come to the same sum, each a table of its own.
use crate::columns::Column;

/// A call of one side; what it answers is a sum over all that it found.
pub type Work = Box<dyn Fn() -> u64>;

#[derive(Clone, Copy, PartialEq)]
pub enum Part {
    /// The cost of making the events, which is in all figures of its table.
    Rule,
    Rival,
    Ours,
}

pub struct Row {
    pub name: &'static str,
    pub part: Part,
    /// One for each column.
    pub works: Vec<Work>,
}

pub struct Group {
    pub title: &'static str,
    /// What stands above the table.
    pub about: String,
    pub columns: Vec<String>,
    /// What else is told by column: a name, and its cells.
    pub facts: Vec<(&'static str, Vec<String>)>,
    /// By column the nanoseconds of a work that make one of the table's unit.
    pub unit: Vec<f64>,
    /// Whether units a second stand beside each figure, which is in nanoseconds then.
    pub rates: bool,
    pub rows: Vec<Row>,
}

/// How much is done in one call of each side.
pub struct Size {
    /// Events that are made one by one.
    pub made: u64,
    /// Events of one long log.
    pub logged: u64,
    /// How often the logs are gone over in one call.
    pub passes: u64,
}

pub const TIMED: Size = Size { made: 1_000_000, logged: 50_000, passes: 4 };
pub const COMPARED: Size = Size { made: 20_000, logged: 20_000, passes: 1 };

mod bounds;
mod events;
mod listing;
mod logs;
pub use listing::input as full_input;

pub fn all(columns: &[Column], size: &Size) -> Vec<Group> {
    vec![
        events::one_by_one(columns, size),
        logs::long(columns, size),
        logs::tallied(columns, size),
        logs::from_c(columns, size),
        bounds::of_worst(),
        listing::of_full(columns),
    ]
}

/// 1,000,000 in place of 1000000.
fn grouped(number: u64) -> String {
    if number < 1000 {
        return number.to_string();
    }
    format!("{},{:03}", grouped(number / 1000), number % 1000)
}
