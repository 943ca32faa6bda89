//! bound_peer STDIN STDOUT: every bound that the bound cases print, found again by trying each R from 1 to D; none is printed of a table that breaks the rules.
use std::env;
use std::fs;
use std::process::exit;

struct Task {
    c: u64,
    d: u64,
    t: u64,
}

fn number(bytes: &[u8]) -> u64 {
    bytes.iter().rev().fold(0, |n, &b| n * 256 + u64::from(b))
}

fn is_table(bytes: &[u8]) -> bool {
    let good = |r: &[u8]| {
        let (c, d, t, m, k) = (number(&r[2..6]), number(&r[6..10]), number(&r[10..14]), r[14], r[15]);
        r[..2] == [0x54, 0x4B] && 1 <= c && c <= d && d <= t && t <= 1_000_000 && k <= 64 && m < k && (m > 0 || k == 1)
    };
    bytes.len() % 16 == 0 && (16..=256).contains(&bytes.len()) && bytes.chunks(16).all(good)
}

fn tasks(table: &[u8]) -> Vec<Task> {
    table
        .chunks(16)
        .map(|r| Task { c: number(&r[2..6]), d: number(&r[6..10]), t: number(&r[10..14]) })
        .collect()
}

/// The smallest R from 1 to D that holds the task's own time and that of every task above it.
fn bound(tasks: &[Task], k: usize) -> Option<u64> {
    let own = &tasks[k];
    let above: Vec<&Task> = tasks
        .iter()
        .enumerate()
        .filter(|(i, a)| a.d < own.d || (a.d == own.d && *i < k))
        .map(|(_, a)| a)
        .collect();
    (1..=own.d).find(|r| *r >= own.c + above.iter().map(|a| r.div_ceil(a.t) * a.c).sum::<u64>())
}

fn told(tasks: &[Task]) -> String {
    let mut line = String::from("accepted");
    for k in 0..tasks.len() {
        match bound(tasks, k) {
            Some(r) => line += &format!(" {r}"),
            None => line += " -",
        }
    }
    line + &format!(" refused 10 at {}", tasks.len())
}

fn main() {
    let args: Vec<String> = env::args().collect();
    let input = fs::read(&args[1]).expect("the cases");
    let output = fs::read_to_string(&args[2]).expect("what is printed");
    let (mut at, mut bounds, mut wrong) = (0, 0, 0);
    for line in output.lines() {
        let size = number(&input[at..at + 2]) as usize;
        let bytes = &input[at + 2..at + 2 + size];
        at += 2 + size;
        if !is_table(bytes) {
            wrong += usize::from(!line.starts_with("refused"));
            continue;
        }
        let table = tasks(bytes);
        bounds += table.len();
        if !line.starts_with(&told(&table)) {
            println!("{line}\n  is not {}", told(&table));
            wrong += 1;
        }
    }
    println!("{bounds} bounds, {wrong} tables wrong");
    exit(i32::from(wrong > 0 || bounds == 0 || at != input.len()));
}
