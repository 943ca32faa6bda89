//! Events that each side makes itself, one by one.
use super::{grouped, Group, Part, Row, Size, Work};
use crate::columns::Column;
use crate::rivals::idiomatic::Idiomatic;
use crate::rivals::tuned::Tuned;
use crate::rule::Run;
use crate::{ours, rivals};
use std::hint::black_box;

pub fn one_by_one(columns: &[Column], size: &Size) -> Group {
    let works = |side: fn(Run) -> u64| {
        let work = |column: &Column| {
            let run = column.run(size.made, 0);
            Box::new(move || side(black_box(run))) as Work
        };
        columns.iter().map(work).collect()
    };
    let row = |name: &'static str, part: Part, side: fn(Run) -> u64| Row { name, part, works: works(side) };
    Group {
        title: "Events one by one",
        about: format!("Nanoseconds an event; {} events that each side makes by the same rule, which is in all figures", grouped(size.made)),
        columns: columns.iter().map(Column::name).collect(),
        facts: vec![("closed jobs that were missed", columns.iter().map(|column| format!("{} %", rivals::missed(column.run(size.made, 0)))).collect())],
        unit: vec![size.made as f64; columns.len()],
        rates: false,
        rows: vec![
            row("the rule alone, in Rust", Part::Rule, rivals::rule_alone),
            row("the rule alone, ours", Part::Rule, ours::rule_alone),
            row("idiomatic Rust", Part::Rival, rivals::apply::<Idiomatic>),
            row("tuned Rust", Part::Rival, rivals::apply::<Tuned>),
            row("`apply_engine::apply::apply`", Part::Ours, ours::apply),
            row("`lent_engine::apply::apply_in`", Part::Ours, ours::apply_in),
        ],
    }
}
