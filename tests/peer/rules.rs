//! A second engine, written from the rules alone, a file for each heading; it shares nothing with the library.
use crate::branches::Seen;

pub mod bounds;
pub mod choice;
pub mod class_step;
pub mod engine;
pub mod events;
pub mod line;
pub mod listing;
pub mod rig;
pub mod table;
pub mod thresholds;
pub mod window;

pub const LIMIT: u64 = 1_000_000_000_000;
pub const MOST: usize = 65_536;

pub fn number(bytes: &[u8]) -> u64 {
    bytes.iter().rev().fold(0, |sum, b| sum * 256 + u64::from(*b))
}

// The number of the first fault that holds.
pub fn first_of(faults: &[(bool, u8, &'static str)], several: &'static str, seen: &mut Seen) -> Option<u8> {
    let (_, number, branch) = faults.iter().find(|f| f.0)?;
    seen.hit(branch);
    seen.hit_if(faults.iter().any(|f| f.0 && f.1 != *number), several);
    Some(*number)
}
