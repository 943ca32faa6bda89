//! Rules, "Response bound": one task's bound, tried R by R, or by leaps where D is long.
use crate::rules::table::Task;

// The smallest R from 1 to D that the demand of R ticks fits into.
pub fn bound(tasks: &[Task], k: usize) -> Option<u64> {
    let above: Vec<&Task> = (0..tasks.len()).filter(|&i| (tasks[i].d, i) < (tasks[k].d, k)).map(|i| &tasks[i]).collect();
    let demand = |r: u64| tasks[k].c + above.iter().map(|i| r.div_ceil(i.t) * i.c).sum::<u64>();
    if tasks[k].d <= 300 {
        return (1..=tasks[k].d).find(|&r| r >= demand(r));
    }
    // demand never falls, so no R below a demand that is owed can fit
    let mut r = 1;
    while r <= tasks[k].d {
        let owed = demand(r);
        if owed <= r {
            return Some(r);
        }
        r = owed;
    }
    None
}
