//! Rules, "Response bound": the search for the bounds of a table, one task after the other.
use crate::records::{read_table, Task};
use crate::sums::fold;

/// C and T of each task above.
fn above(tasks: &[Task], k: usize) -> Vec<(u64, u64)> {
    let higher = |(i, task): &(usize, &Task)| (task.d, *i) < (tasks[k].d, k);
    tasks.iter().enumerate().filter(higher).map(|(_, task)| (u64::from(task.c), u64::from(task.t))).collect()
}

pub fn bound(tasks: &[Task], k: usize) -> Option<u64> {
    let (own, above) = (u64::from(tasks[k].c), above(tasks, k));
    let mut r = own;
    while r <= u64::from(tasks[k].d) {
        // not div_ceil, which asks for the remainder too and takes a tenth longer
        let demand = own + above.iter().map(|(c, t)| (r + t - 1) / t * c).sum::<u64>();
        if demand <= r {
            return Some(r);
        }
        r = demand;
    }
    None
}

/// The bounds of a table that is not refused, 0 where there is none.
#[inline(never)]
pub fn bounds(table: &[u8]) -> u64 {
    let tasks = read_table(table).unwrap_or_default();
    (0..tasks.len()).fold(0, |sum, k| fold(sum, bound(&tasks, k).unwrap_or(0)))
}
