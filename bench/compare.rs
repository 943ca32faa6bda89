//! All sides have to agree before anything is timed.
use crate::columns::compared;
use crate::groups::{full_input, Group, Part};
use crate::rivals::idiomatic::Idiomatic;
use crate::rivals::listing::list;
use crate::rivals::tuned::Tuned;
use crate::spoilt::{long, spoilt, Case};
use crate::{ours, rivals};

const SPOILT: u64 = 4000;
const LONG: u64 = 200;

fn differs(side: &str, other: &str, column: &str) -> Result<(), String> {
    Err(format!("{side} differs from {other} ({column}): docs/RULES.md says which of them is wrong"))
}

/// Of one column all rows that make events alone, or all others, against the first of them.
fn column(group: &Group, at: usize, rule: bool) -> Result<(), String> {
    let mut rows = group.rows.iter().filter(|row| (row.part == Part::Rule) == rule);
    let Some(first) = rows.next() else { return Ok(()) };
    let sum = first.works[at]();
    match rows.find(|row| row.works[at]() != sum) {
        Some(row) => differs(row.name, first.name, &format!("{}, {}", group.title, group.columns[at])),
        None => Ok(()),
    }
}

/// All sides come to the same sums.
pub fn sums(groups: &[Group]) -> Result<(), String> {
    for group in groups {
        for at in 0..group.columns.len() {
            column(group, at, true)?;
            column(group, at, false)?;
        }
    }
    Ok(())
}

/// The texts of both sides, byte by byte.
fn listing(input: &[u8], named: &str) -> Result<(), String> {
    let mut out = vec![0; ours::ROOM];
    let size = ours::list(input, &mut out) as usize;
    if out.get(..size) != Some(list(input).as_bytes()) {
        return differs("`listing_of_input::list`", "idiomatic Rust", named);
    }
    Ok(())
}

/// The reports of all sides.
fn report(case: &Case, named: &str) -> Result<(), String> {
    let Case { table, log } = case;
    let sum = rivals::tallied::<Idiomatic>(table, log);
    if rivals::tallied::<Tuned>(table, log) != sum {
        return differs("tuned Rust, tallied,", "idiomatic Rust", named);
    }
    if ours::tally(table, log) != sum {
        return differs("`tally_runs::report::run`", "idiomatic Rust", named);
    }
    Ok(())
}

fn case(case: &Case, named: &str) -> Result<(), String> {
    let Case { table, log } = case;
    let differs = |side: &str| differs(side, "idiomatic Rust", named);
    let (sum, code) = (rivals::log::<Idiomatic>(table, log), rivals::choice::<Idiomatic>(table, log));
    if rivals::log::<Tuned>(table, log) != sum || rivals::choice::<Tuned>(table, log) != code {
        return differs("tuned Rust");
    }
    if ours::log(table, log) != sum {
        return differs("`apply_engine::log::run`");
    }
    if ours::choice(table, log) != code {
        return differs("`rig::brumerola_choice`");
    }
    report(case, named)?;
    listing(&case.input(), named)
}

/// Whole texts, and bytes that break the rules, so that every refusal is met.
pub fn bytes() -> Result<(), String> {
    for column in compared() {
        listing(&full_input(&column, 0), &format!("full input, {}", column.name()))?;
    }
    (0..SPOILT).try_for_each(|seed| case(&spoilt(seed), &format!("spoilt bytes, case {seed}")))?;
    (0..LONG).try_for_each(|seed| report(&long(seed), &format!("a long log of spoilt bytes, case {seed}")))
}
