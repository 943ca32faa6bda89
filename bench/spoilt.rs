//! Tables and logs of the bench with some bytes changed: what a seed makes of them breaks every rule of records and events now and then.
use crate::columns::{compared, Column};

pub struct Case {
    pub table: Vec<u8>,
    pub log: Vec<u8>,
}

impl Case {
    /// The listing's input.
    pub fn input(&self) -> Vec<u8> {
        [&[(self.table.len() / 16) as u8], &self.table[..], &self.log].concat()
    }
}

struct Chance(u64);

impl Chance {
    fn below(&mut self, limit: usize) -> usize {
        self.0 = self.0.wrapping_mul(6_364_136_223_846_793_005).wrapping_add(1_442_695_040_888_963_407);
        (self.0 >> 33) as usize % limit
    }

    fn of<T: Copy>(&mut self, all: &[T]) -> T {
        all[self.below(all.len())]
    }
}

/// Another value in one of these places of some record.
fn change(chance: &mut Chance, bytes: &mut [u8], size: usize, places: &[usize]) {
    if bytes.len() >= size {
        let at = size * chance.below(bytes.len() / size) + chance.of(places);
        bytes[at] = if chance.below(2) == 0 { chance.below(4) as u8 } else { chance.below(256) as u8 };
    }
}

/// A short log, as every function takes it.
pub fn spoilt(seed: u64) -> Case {
    let mut chance = Chance(seed);
    let column = chance.of(&compared());
    let events = chance.below(60) as u64;
    made(&mut chance, &column, events, seed)
}

/// A log of more than one chunk, or one that ends where a chunk does.
pub fn long(seed: u64) -> Case {
    let mut chance = Chance(seed);
    let column = chance.of(&compared());
    let events = chance.of(&[3276, 3277, 6552, 10_000]);
    made(&mut chance, &column, events, seed)
}

fn made(chance: &mut Chance, column: &Column, events: u64, seed: u64) -> Case {
    let (mut table, mut log) = column.run(events, seed).bytes();
    // kind, task, the low bytes of job and time, and seldom the mark or a high byte
    let places = [0, 2, 3, 3, 4, 4, 12, 12, 12, 12, 13, 17, 19];
    for _ in 0..chance.of(&[0, 1, 1, 4, 16]) {
        change(chance, &mut log, 20, &places);
    }
    if chance.below(8) == 0 {
        change(chance, &mut table, 16, &[1, 2, 3, 6, 10, 12, 14, 15]);
    }
    if chance.below(16) == 0 {
        table.extend_from_slice(&[0x54; 5][..chance.below(6)]);
    }
    log.truncate(log.len() - chance.of(&[0, 0, 0, 7]).min(log.len()));
    Case { table, log }
}
