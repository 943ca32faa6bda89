//! Bytes that break a rule: a table or a log that was good is spoilt in one place, or grown past the limit.
use crate::cases::random::Random;
use crate::rules::events::Event;
use crate::rules::{number, LIMIT, MOST};

// How often a part is damaged: mostly not at all.
pub const DAMAGES: [u64; 16] = [0, 0, 0, 0, 0, 0, 0, 0, 0, 0, 0, 0, 0, 1, 1, 4];

pub fn damage_table(r: &mut Random, table: &mut Vec<u8>) {
    if table.len() < 16 {
        return;
    }
    let at = 16 * (r.next() as usize % (table.len() / 16));
    let (d, t) = (number(&table[at + 6..at + 10]), number(&table[at + 10..at + 14]));
    let mut put = |place: usize, x: u64| table[at + place..at + place + 4].copy_from_slice(&(x as u32).to_le_bytes());
    match r.from(0, 15) {
        0 => put(2, 0),
        1 => put(2, d + 1),
        2 => put(6, t + 1),
        3 => put(10, r.of(&[1_000_001, u64::from(u32::MAX)])),
        4 => put(10, 1_000_000),
        5 => table[at] = r.next() as u8,
        6 => table[at + 1] = r.of(&[0x54, 0x4A, 0]),
        7 => table[at + 15] = 0,
        8 => table[at + 15] = r.of(&[65, 66, 128, 255]),
        9 => table[at + 14] = table[at + 15],
        10 => table[at + 14] = 0,
        11 => table[at + 14] = r.next() as u8,
        12 => table.truncate(table.len() - r.from(1, 15) as usize),
        13 => table.extend(vec![0x54; r.from(1, 15) as usize]),
        14 => *table = table[..16].repeat(r.of(&[17, 18, 32, 257])),
        _ => table.clear(),
    }
}

pub fn damage_log(r: &mut Random, log: &mut Vec<u8>) {
    if log.len() >= 20 {
        let at = 20 * (r.next() as usize % (log.len() / 20));
        match r.from(0, 9) {
            0 => log[at] = r.next() as u8,
            1 => log[at + 1] = r.of(&[0x45, 0x57, 0]),
            2 => log[at + 2] = r.of(&[3, 4, 255]),
            3 => log[at + 2] = r.from(0, 2) as u8,
            4 => log[at + 3] = r.of(&[1, 9, 255]),
            5 => log[at + r.from(4, 11) as usize] = r.of(&[1, 255]),
            6 => {
                let any = r.next() as usize % log.len();
                log[any] = r.next() as u8;
            }
            7 => log.truncate(log.len() - r.from(1, 19) as usize),
            8 => log.extend(vec![0x45; r.from(1, 19) as usize]),
            _ => {
                log.remove(at);
            }
        }
    } else {
        log.extend(vec![0x45; r.from(1, 21) as usize]);
    }
}

// The log filled up with ticks at its end to a size near the limit.
pub fn lengthen(r: &mut Random, log: &mut Vec<u8>, beside: usize) {
    let size = MOST + r.of(&[0, 0, 1, 2, 20, 400]) - r.of(&[0, beside]);
    let tick = Event { kind: 0, task: 0, job: 0, time: LIMIT }.record();
    while log.len() < size {
        log.extend_from_slice(&tick);
    }
    log.truncate(size);
}
