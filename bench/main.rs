//! bench compare | bench times: whether all sides agree, and what they cost. bench/run builds and starts it.
use groups::{COMPARED, TIMED};
use std::io::Write;

mod clock;
mod columns;
mod compare;
mod groups;
mod measure;
mod ours;
mod records;
mod rivals;
mod rule;
mod spoilt;
mod sums;
mod tables;

/// An odd number, so that a median is one of them.
const ROUNDS: usize = 11;

fn agreed() -> Result<(), String> {
    compare::sums(&groups::all(&columns::compared(), &COMPARED))?;
    compare::bytes()
}

fn timed() -> Result<(), String> {
    let groups = groups::all(&columns::timed(), &TIMED);
    compare::sums(&groups)?;
    let costs = measure::rounds(&groups, ROUNDS);
    let mut text = format!("Medians of {ROUNDS} rounds. Ratios are taken round by round: their median, and 10 to 90 % of them.\n\n");
    text.extend(groups.iter().zip(&costs).map(|(group, costs)| tables::text(group, costs)));
    std::io::stdout().write_all(text.as_bytes()).map_err(|wrong| format!("the tables could not be written: {wrong}"))
}

fn main() {
    let done = match std::env::args().nth(1).as_deref() {
        Some("compare") => agreed(),
        Some("times") => timed(),
        _ => Err("say compare or times, or start bench/run".to_string()),
    };
    if let Err(wrong) = done {
        eprintln!("bench: {wrong}");
        std::process::exit(1);
    }
}
