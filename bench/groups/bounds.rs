//! All bounds of the worst tables known: tables that leave no time, so that the search takes its longest way (docs/TIMES.md, "The search for a bound").
use super::{Group, Part, Row, Work};
use crate::ours;
use crate::records::Task;
use crate::rivals::bounds::bounds;
use std::hint::black_box;

/// A table of 16: tasks with these T and C = 1 above others that are as long as a task can be.
fn table(spacings: &[u32]) -> Vec<u8> {
    let task = |i: usize| {
        let t = spacings.get(i).copied().unwrap_or(1_000_000);
        Task { c: 1, d: t, t, m: 1, k: 2 }
    };
    (0..16).flat_map(|i| task(i).record()).collect()
}

fn row(name: &'static str, part: Part, tables: &[Vec<u8>], side: fn(&[u8]) -> u64) -> Row {
    let work = |table: &Vec<u8>| {
        let table = table.clone();
        Box::new(move || side(black_box(&table))) as Work
    };
    Row { name, part, works: tables.iter().map(work).collect() }
}

pub fn of_worst() -> Group {
    let tables = [table(&[1]), table(&[2, 3, 7, 43, 1807])];
    Group {
        title: "All 16 bounds of a table",
        about: "Milliseconds for all 16, one by one; T of the tasks above, the others have D = T = 1,000,000, all have C = 1".to_string(),
        columns: vec!["T = 1".to_string(), "T = 2, 3, 7, 43, 1807".to_string()],
        facts: Vec::new(),
        unit: vec![1e6; tables.len()],
        rates: false,
        rows: vec![row("Rust", Part::Rival, &tables, bounds), row("`bound_one::of_table::bound`", Part::Ours, &tables, ours::bounds)],
    }
}
