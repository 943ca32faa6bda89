//! The branches that a run has to reach: what was seen on the way is counted, and a branch that never was seen fails the run.
use std::collections::BTreeMap;

// Every branch that a run has to reach; one that is never reached fails it.
const BRANCHES: &[&str] = &[
    "table: 1, no bytes",
    "table: 1, not whole records",
    "table: 1, over 16 records",
    "table: 2, first byte",
    "table: 2, second byte",
    "table: 3, C is 0",
    "table: 3, C above D",
    "table: 3, D above T",
    "table: 3, T above the limit",
    "table: 4, K is 0",
    "table: 4, K above 64",
    "table: 4, m not below K",
    "table: 4, m is 0 and K is not 1",
    "table: faults of two numbers in one record",
    "table: a later record has a smaller number",
    "table: refused at 0",
    "table: refused further on",
    "table: 1 task",
    "table: 16 tasks",
    "table: T at the limit",
    "read: 5, 1 to 19 bytes",
    "read: 6, first byte",
    "read: 6, second byte",
    "read: 7",
    "read: 8, tick with a task",
    "read: 8, tick with a job",
    "read: 8, release with a job",
    "read: faults of two numbers in one record",
    "read: stop at 0",
    "read: stop further on",
    "read: a record behind the stop",
    "event: 9, above the limit",
    "event: 9, before the clock",
    "event: 9 and no such task",
    "event: 10, release",
    "event: 10, completion",
    "event: 11",
    "event: 11, a job is open",
    "event: 12, nothing open",
    "event: 12, another job is open",
    "event: 12, job 0",
    "event: 12, the job has expired",
    "event: refused, and step 1 undone",
    "event: accepted at a time before one that was refused",
    "event: accepted at the limit",
    "event: accepted at the clock",
    "event: first release is late",
    "event: release at its spacing",
    "close: late, one job",
    "close: late, several jobs at once",
    "close: at the deadline by a release",
    "close: met at the deadline",
    "close: met at its release",
    "close: met at the top",
    "close: met below the top",
    "close: met, a run ends",
    "close: met by the choice",
    "close: met by another job",
    "close: missed in class 0",
    "close: missed, the run reaches w",
    "close: missed, the run rises",
    "close: hard task met",
    "close: hard task missed",
    "window: broken set",
    "window: broken stays though the window is good",
    "window: a miss drops out",
    "window: 64 jobs",
    "window: m misses and not broken",
    "window: miss, met, miss with (1,3)",
    "choice: none",
    "choice: class decides against D",
    "choice: D decides",
    "choice: position decides",
    "choice: not the earliest deadline",
    "choice: class 1",
    "choice: class 2 or more",
    "bound: found",
    "bound: D itself",
    "bound: none",
    "bound: none at 0 and one further on",
    "bound: equal D above and below",
    "rig: too long",
    "rig: too long with a bad table",
    "rig: 65,536 bytes",
    "rig: empty log",
    "rig: bad table and bad record",
    "rig: bad record and a last event that is refused",
    "rig: an earlier refusal does not show",
    "listing: too long",
    "listing: 65,536 bytes",
    "listing: n is 0",
    "listing: n above 16",
    "listing: nothing",
    "listing: table cut",
    "listing: a hard task's w",
];

#[derive(Clone)]
pub struct Seen {
    pub on: bool,
    pub counts: BTreeMap<&'static str, u64>,
    pub codes: [u64; 65],
}

impl Seen {
    pub fn new(on: bool) -> Seen {
        Seen { on, counts: BTreeMap::new(), codes: [0; 65] }
    }

    pub fn hit(&mut self, branch: &'static str) {
        if self.on {
            *self.counts.entry(branch).or_insert(0) += 1;
        }
    }

    pub fn hit_if(&mut self, holds: bool, branch: &'static str) {
        if holds {
            self.hit(branch);
        }
    }

    pub fn add(&mut self, other: &Seen) {
        for (name, count) in &other.counts {
            *self.counts.entry(name).or_insert(0) += count;
        }
        for (all, count) in self.codes.iter_mut().zip(other.codes.iter()) {
            *all += count;
        }
    }

    // The branches and codes that were never reached.
    pub fn missing(&self, listing: bool) -> Vec<String> {
        let mut out: Vec<String> = BRANCHES
            .iter()
            .filter(|b| (listing || !(b.starts_with("listing") || b.starts_with("bound"))) && !self.counts.contains_key(*b))
            .map(|b| b.to_string())
            .collect();
        for code in (0..=16).chain(33..=44).chain(64..=64) {
            if self.codes[code] == 0 {
                out.push(format!("rig: code {code}"));
            }
        }
        for name in self.counts.keys() {
            if !BRANCHES.contains(name) {
                out.push(format!("{name} is no branch of the list"));
            }
        }
        out
    }

    pub fn show(&self) {
        for branch in BRANCHES {
            println!("{:8}  {}", self.counts.get(branch).unwrap_or(&0), branch);
        }
        for (code, count) in self.codes.iter().enumerate().filter(|(_, c)| **c > 0) {
            println!("{count:8}  rig: code {code}");
        }
    }
}
