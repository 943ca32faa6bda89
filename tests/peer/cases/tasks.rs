//! Tables that the rules accept, near the edges of theirs.
use crate::cases::random::Random;
use crate::rules::table::Task;

fn some_misses(r: &mut Random) -> (u64, u64) {
    let known = [(0, 1), (0, 1), (1, 2), (2, 3), (1, 3), (1, 3), (2, 5), (3, 5), (63, 64), (1, 64), (32, 64), (1, 4), (3, 4), (5, 6)];
    if r.chance(75) {
        return r.of(&known);
    }
    let k = r.from(2, 64);
    (r.from(1, k - 1), k)
}

fn some_times(r: &mut Random, style: u64, n: u64, shared: u64) -> (u64, u64, u64) {
    let (t, d) = match style {
        0 => (r.from(1, 12), 12),
        1 => (r.from(20, 200), 200),
        2 => (r.from(shared, shared + 8), shared),
        3 => (r.from(1, 1_000_000), 1_000_000),
        _ => (r.of(&[1, 2, 3, 10, 1_000_000]), 1_000_000),
    };
    let d = if style == 2 { d } else if r.chance(50) { t } else { r.from(1, std::cmp::min(t, d)) };
    let c = if r.chance(70) { r.from(1, std::cmp::max(1, d / (n + 1))) } else { r.from(1, d) };
    (c, d, t)
}

pub fn some_tasks(r: &mut Random) -> Vec<Task> {
    let n = match r.from(0, 9) {
        0 => 1,
        1 => 16,
        2..=6 => r.from(2, 4),
        _ => r.from(1, 16),
    };
    let style = r.of(&[0, 0, 0, 1, 1, 2, 2, 3, 4]);
    let shared = r.from(1, 20);
    (0..n)
        .map(|_| {
            let (c, d, t) = some_times(r, style, n, shared);
            let (m, k) = some_misses(r);
            Task { c, d, t, m, k }
        })
        .collect()
}
