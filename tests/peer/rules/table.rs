//! Rules, "The task table": what 16 bytes say of a task, and the first fault of a table.
use crate::branches::Seen;
use crate::rules::{first_of, number};

#[derive(Clone, Debug)]
pub struct Task {
    pub c: u64,
    pub d: u64,
    pub t: u64,
    pub m: u64,
    pub k: u64,
}

impl Task {
    pub fn record(&self) -> Vec<u8> {
        let mut out = vec![0x54, 0x4B];
        for x in [self.c, self.d, self.t] {
            out.extend_from_slice(&(x as u32).to_le_bytes());
        }
        out.push(self.m as u8);
        out.push(self.k as u8);
        out
    }
}

// The tasks, or a refusal and its position.
pub fn read_table(bytes: &[u8], seen: &mut Seen) -> Result<Vec<Task>, (u8, usize)> {
    if bytes.is_empty() || bytes.len() % 16 != 0 || bytes.len() > 256 {
        seen.hit(if bytes.is_empty() {
            "table: 1, no bytes"
        } else if bytes.len() % 16 != 0 {
            "table: 1, not whole records"
        } else {
            "table: 1, over 16 records"
        });
        return Err((1, 0));
    }
    let mut tasks = Vec::new();
    for (position, r) in bytes.chunks(16).enumerate() {
        if let Err(number) = read_task(r, seen).map(|task| tasks.push(task)) {
            let later = |r: &[u8]| read_task(r, &mut Seen::new(false)).is_err_and(|other| other < number);
            seen.hit_if(bytes[16 * position + 16..].chunks(16).any(later), "table: a later record has a smaller number");
            seen.hit(if position == 0 { "table: refused at 0" } else { "table: refused further on" });
            return Err((number, position));
        }
    }
    seen.hit_if(tasks.len() == 1, "table: 1 task");
    seen.hit_if(tasks.len() == 16, "table: 16 tasks");
    seen.hit_if(tasks.iter().any(|task| task.t == 1_000_000), "table: T at the limit");
    Ok(tasks)
}

fn read_task(r: &[u8], seen: &mut Seen) -> Result<Task, u8> {
    let task = Task { c: number(&r[2..6]), d: number(&r[6..10]), t: number(&r[10..14]), m: u64::from(r[14]), k: u64::from(r[15]) };
    let faults: [(bool, u8, &'static str); 10] = [
        (r[0] != 0x54, 2, "table: 2, first byte"),
        (r[1] != 0x4B, 2, "table: 2, second byte"),
        (task.c < 1, 3, "table: 3, C is 0"),
        (task.c > task.d, 3, "table: 3, C above D"),
        (task.d > task.t, 3, "table: 3, D above T"),
        (task.t > 1_000_000, 3, "table: 3, T above the limit"),
        (task.k < 1, 4, "table: 4, K is 0"),
        (task.k > 64, 4, "table: 4, K above 64"),
        (task.m >= task.k, 4, "table: 4, m not below K"),
        (task.m == 0 && task.k != 1, 4, "table: 4, m is 0 and K is not 1"),
    ];
    first_of(&faults, "table: faults of two numbers in one record", seen).map_or(Ok(task), Err)
}
