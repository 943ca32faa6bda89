//! The listing of inputs that are full.
use super::{Group, Part, Row, Work};
use crate::columns::Column;
use crate::ours;
use crate::rivals::listing::list;
use std::cell::RefCell;
use std::hint::black_box;
use std::rc::Rc;

const INPUTS: u64 = 16;

/// The byte n, the table and as many events as there is room for.
pub fn input(column: &Column, index: u64) -> Vec<u8> {
    let (table, log) = column.run(column.listed(), index).bytes();
    [&[(table.len() / 16) as u8], &table[..], &log].concat()
}

fn row(name: &'static str, part: Part, inputs: &[Rc<Vec<Vec<u8>>>], side: fn(&[u8], &mut [u8]) -> u64) -> Row {
    let work = |inputs: &Rc<Vec<Vec<u8>>>| {
        let (inputs, out) = (Rc::clone(inputs), RefCell::new(vec![0; ours::ROOM]));
        Box::new(move || inputs.iter().map(|input| side(black_box(input), &mut out.borrow_mut())).sum()) as Work
    };
    Row { name, part, works: inputs.iter().map(work).collect() }
}

pub fn of_full(columns: &[Column]) -> Group {
    let inputs: Vec<_> = columns.iter().map(|column| Rc::new((0..INPUTS).map(|index| input(column, index)).collect::<Vec<_>>())).collect();
    Group {
        title: "The listing of a full input",
        about: format!("Microseconds a listing; {INPUTS} inputs of 65,517 bytes or a few more; by the random rule no two are alike"),
        columns: columns.iter().map(Column::name).collect(),
        facts: Vec::new(),
        unit: vec![1e3 * INPUTS as f64; columns.len()],
        rates: false,
        rows: vec![
            row("idiomatic Rust", Part::Rival, &inputs, |input, _| list(input).len() as u64),
            row("`listing_of_input::list`", Part::Ours, &inputs, ours::list),
        ],
    }
}
