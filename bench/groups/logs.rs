//! Logs as bytes: one that is long, the same one tallied, and many as short as C may hand over.
use super::{grouped, Group, Part, Row, Size, Work};
use crate::columns::Column;
use crate::rivals::idiomatic::Idiomatic;
use crate::rivals::tuned::Tuned;
use crate::sums::fold;
use crate::{ours, rivals};
use std::hint::black_box;
use std::rc::Rc;

/// No log of more events is looked at from C; these leave some room.
const FROM_C: u64 = 3270;
/// One short log that is gone over again would be learned by the processor.
const LOGS: u64 = 16;

struct Bytes {
    table: Vec<u8>,
    logs: Vec<Vec<u8>>,
}

fn bytes(column: &Column, logs: u64, events: u64) -> Rc<Bytes> {
    let logs = (0..logs).map(|index| column.run(events, index).bytes().1).collect();
    Rc::new(Bytes { table: column.run(0, 0).bytes().0, logs })
}

fn row(name: &'static str, part: Part, all: &[Rc<Bytes>], passes: u64, side: fn(&[u8], &[u8]) -> u64) -> Row {
    let work = |bytes: &Rc<Bytes>| {
        let bytes = Rc::clone(bytes);
        let pass = move |sum| bytes.logs.iter().fold(sum, |sum, log| fold(sum, side(black_box(&bytes.table), log)));
        Box::new(move || (0..passes).fold(0, |sum, _| pass(sum))) as Work
    };
    Row { name, part, works: all.iter().map(work).collect() }
}

pub fn long(columns: &[Column], size: &Size) -> Group {
    let all: Vec<_> = columns.iter().map(|column| bytes(column, 1, size.logged)).collect();
    let row = |name: &'static str, part: Part, side: fn(&[u8], &[u8]) -> u64| row(name, part, &all, size.passes, side);
    Group {
        title: "A log of bytes",
        about: format!("Nanoseconds an event; a log of {} events, {} times over", grouped(size.logged), size.passes),
        columns: columns.iter().map(Column::name).collect(),
        facts: Vec::new(),
        unit: vec![(size.logged * size.passes) as f64; columns.len()],
        rates: false,
        rows: vec![
            row("idiomatic Rust", Part::Rival, rivals::log::<Idiomatic>),
            row("tuned Rust", Part::Rival, rivals::log::<Tuned>),
            row("`apply_engine::log::run`", Part::Ours, ours::log),
        ],
    }
}

/// The report of a long log, in chunks as its program reads them.
pub fn tallied(columns: &[Column], size: &Size) -> Group {
    let all: Vec<_> = columns.iter().map(|column| bytes(column, 1, size.logged)).collect();
    let row = |name: &'static str, part: Part, side: fn(&[u8], &[u8]) -> u64| row(name, part, &all, size.passes, side);
    Group {
        title: "A log tallied",
        about: format!(
            "Nanoseconds an event, and millions of events a second; a log of {} events, {} times over; {} bytes at once, with state and tallies carried on",
            grouped(size.logged),
            size.passes,
            grouped(rivals::CHUNK as u64)
        ),
        columns: columns.iter().map(Column::name).collect(),
        facts: Vec::new(),
        unit: vec![(size.logged * size.passes) as f64; columns.len()],
        rates: true,
        rows: vec![
            row("idiomatic Rust", Part::Rival, rivals::tallied::<Idiomatic>),
            row("tuned Rust", Part::Rival, rivals::tallied::<Tuned>),
            row("`tally_runs::report::run`", Part::Ours, ours::tally),
        ],
    }
}

pub fn from_c(columns: &[Column], size: &Size) -> Group {
    let all: Vec<_> = columns.iter().map(|column| bytes(column, LOGS, FROM_C)).collect();
    let row = |name: &'static str, part: Part, side: fn(&[u8], &[u8]) -> u64| row(name, part, &all, size.passes, side);
    Group {
        title: "From C",
        about: format!("Nanoseconds an event; {LOGS} logs of {} events, {} times over; by the random rule no two are alike", grouped(FROM_C), size.passes),
        columns: columns.iter().map(Column::name).collect(),
        facts: Vec::new(),
        unit: vec![(LOGS * FROM_C * size.passes) as f64; columns.len()],
        rates: false,
        rows: vec![
            row("idiomatic Rust", Part::Rival, |table, log| rivals::choice::<Idiomatic>(table, log).into()),
            row("tuned Rust", Part::Rival, |table, log| rivals::choice::<Tuned>(table, log).into()),
            row("`rig::brumerola_choice`", Part::Ours, |table, log| ours::choice(table, log).into()),
        ],
    }
}
