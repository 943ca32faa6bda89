//! The generator of cases: a table, a log, and what of them is spoilt; the seed alone decides.
use crate::cases::damage::{damage_log, damage_table, lengthen, DAMAGES};
use crate::cases::events::some_events;
use crate::cases::random::Random;
use crate::cases::tasks::some_tasks;

mod damage;
mod events;
pub mod random;
mod tasks;

#[derive(Clone)]
pub struct Case {
    pub n: u8,
    pub table: Vec<u8>,
    pub log: Vec<u8>,
    // nothing at all is handed to the listing
    pub nothing: bool,
}

impl Case {
    pub fn input(&self) -> Vec<u8> {
        if self.nothing {
            return Vec::new();
        }
        let mut all = vec![self.n];
        all.extend_from_slice(&self.table);
        all.extend_from_slice(&self.log);
        all
    }
}

pub fn some_case(r: &mut Random) -> Case {
    let tasks = some_tasks(r);
    let mut table: Vec<u8> = tasks.iter().flat_map(|task| task.record()).collect();
    let mut log: Vec<u8> = some_events(r, &tasks).iter().flat_map(|event| event.record()).collect();
    for _ in 0..r.of(&DAMAGES) {
        damage_log(r, &mut log);
    }
    if r.next() % 200 == 0 {
        lengthen(r, &mut log, 1 + table.len());
    }
    for _ in 0..r.of(&DAMAGES) {
        damage_table(r, &mut table);
    }
    // the listing's count is that of the bytes, or of the table before it was damaged, or any
    let whole = if r.chance(50) { tasks.len() as u64 } else { std::cmp::min(table.len() as u64 / 16, 255) };
    let n = if r.chance(3) { r.of(&[0, whole + 1, whole.saturating_sub(1), 17, 255]) } else { whole };
    if r.chance(1) {
        log.clear();
    }
    Case { n: n as u8, table, log, nothing: r.next() % 1000 == 0 }
}
