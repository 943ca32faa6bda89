//! A case that differs, made as small as it can be found, and shown.
use crate::branches::Seen;
use crate::cases::Case;
use crate::rules::events::read_log;
use crate::rules::table::read_table;

// Whether each case is answered otherwise than the peer does.
pub type Differs<'a> = &'a dyn Fn(&[Case]) -> Vec<bool>;

fn without(bytes: &[u8], from: usize, to: usize) -> Vec<u8> {
    [&bytes[..from], &bytes[to..]].concat()
}

// A case without one task: its events go, and later tasks move up.
fn without_task(case: &Case, position: usize) -> Case {
    let mut log = Vec::new();
    for record in case.log.chunks(20) {
        let mut kept = record.to_vec();
        if record.len() == 20 && record[2] != 0 {
            if record[3] as usize == position {
                continue;
            }
            if record[3] as usize > position {
                kept[3] -= 1;
            }
        }
        log.extend_from_slice(&kept);
    }
    let table = without(&case.table, 16 * position, 16 * position + 16);
    Case { n: case.n.saturating_sub(1), table, log, nothing: case.nothing }
}

fn smaller(case: &Case) -> Vec<Case> {
    let mut out = Vec::new();
    let events = case.log.len() / 20;
    let mut size = events;
    while size > 0 {
        for from in (0..events).step_by(size) {
            let to = std::cmp::min(events, from + size);
            out.push(Case { log: without(&case.log, 20 * from, 20 * to), ..case.clone() });
        }
        size /= 2;
    }
    for position in 0..case.table.len() / 16 {
        out.push(without_task(case, position));
        let table = without(&case.table, 16 * position, 16 * position + 16);
        out.push(Case { table, n: case.n.saturating_sub(1), ..case.clone() });
    }
    out
}

// Smaller cases that still differ, until none does.
fn smallest(first: &Case, differs: Differs) -> Case {
    let mut best = first.clone();
    loop {
        let tries = smaller(&best);
        let found = tries.chunks(64).find_map(|some| differs(some).iter().position(|d| *d).map(|i| some[i].clone()));
        match found {
            Some(case) => best = case,
            None => return best,
        }
    }
}

fn describe(case: &Case) {
    let mut quiet = Seen::new(false);
    let nothing = if case.nothing { ", and no input for the listing" } else { "" };
    println!("  n {}, {} table bytes, {} log bytes{nothing}", case.n, case.table.len(), case.log.len());
    match read_table(&case.table, &mut quiet) {
        Ok(tasks) => tasks.iter().for_each(|t| println!("  task ({},{},{},({},{}))", t.c, t.d, t.t, t.m, t.k)),
        Err((number, position)) => println!("  the table is refused {number} at {position}"),
    }
    let (events, stop) = read_log(&case.log, &mut quiet);
    events.iter().for_each(|e| println!("  kind {} task {} job {} time {}", e.kind, e.task, e.job, e.time));
    if let Some((number, offset)) = stop {
        println!("  the log stops with {number} at {offset}");
    }
    let hex: String = case.input().iter().take(2000).map(|b| format!("{b:02x}")).collect();
    println!("  bytes {hex}");
}

pub fn report(what: &str, case: &Case, differs: Differs, answers: &dyn Fn(&Case) -> (String, String)) {
    let least = smallest(case, differs);
    let (theirs, ours) = answers(&least);
    println!("{what} differs; the smallest case found:");
    describe(&least);
    println!("it says:\n{theirs}\nand not:\n{ours}");
}
