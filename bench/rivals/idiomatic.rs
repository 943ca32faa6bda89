//! The engine as a Rust programmer writes it: a `Vec` of tasks, an `Option` of a job, iterators.
use crate::records::{Event, Task};
use crate::rivals::tally::Plain;
use crate::rivals::thresholds::Thresholds;
use crate::rivals::{Answer, Chosen, Engine};

struct Job {
    number: u64,
    deadline: u64,
    class: u32,
}

struct Line {
    task: Task,
    limits: Thresholds,
    level: i32,
    run: u32,
    job: Option<Job>,
    last: Option<u64>,
    released: u64,
    met: u64,
    missed: u64,
    marks: u64,
    broken: u64,
}

impl Line {
    fn fresh(task: &Task) -> Line {
        let limits = Thresholds::of(task);
        let level = limits.lowest;
        Line { task: *task, limits, level, run: 0, job: None, last: None, released: 0, met: 0, missed: 0, marks: 0, broken: 0 }
    }

    fn class(&self) -> u32 {
        self.level.max(0) as u32
    }

    fn mark(&mut self, number: u64, miss: bool) {
        let window = u64::MAX >> (64 - u32::from(self.task.k));
        self.marks = (self.marks << 1 | u64::from(miss)) & window;
        if self.broken == 0 && self.marks.count_ones() > u32::from(self.task.m) {
            self.broken = number;
        }
    }

    fn meet(&mut self) {
        if let Some(job) = self.job.take() {
            self.met += 1;
            self.level = (self.level + 1).min(self.limits.top);
            self.run = 0;
            self.mark(job.number, false);
        }
    }

    fn miss(&mut self) {
        if let Some(job) = self.job.take() {
            self.missed += 1;
            if self.class() == 0 || self.run + 1 == self.limits.w {
                self.level = self.limits.lowest;
                self.run = 0;
            } else {
                self.run += 1;
            }
            self.mark(job.number, true);
        }
    }

    fn expire(&mut self, time: u64) {
        if self.job.as_ref().is_some_and(|job| job.deadline < time) {
            self.miss();
        }
    }

    fn open(&mut self, time: u64) {
        self.released += 1;
        self.last = Some(time);
        self.job = Some(Job { number: self.released, deadline: time + u64::from(self.task.d), class: self.class() });
    }

    fn too_soon(&self, time: u64) -> bool {
        self.last.is_some_and(|last| time < last + u64::from(self.task.t))
    }

    fn has(&self, number: u64, time: u64) -> bool {
        self.job.as_ref().is_some_and(|job| job.number == number && time <= job.deadline)
    }
}

pub struct Idiomatic {
    clock: u64,
    lines: Vec<Line>,
}

impl Idiomatic {
    fn check(&self, event: &Event) -> Result<(), u8> {
        if event.time > 1_000_000_000_000 || event.time < self.clock {
            return Err(9);
        }
        if event.kind == 0 {
            return Ok(());
        }
        let line = self.lines.get(usize::from(event.task)).ok_or(10)?;
        match event.kind {
            1 if line.too_soon(event.time) => Err(11),
            2 if !line.has(event.job, event.time) => Err(12),
            _ => Ok(()),
        }
    }

    /// What the listing's last lines say of each task: met, missed, open, window, broken.
    pub fn verdicts(&self) -> impl Iterator<Item = [u64; 5]> + '_ {
        self.lines.iter().map(|line| [line.met, line.missed, u64::from(line.job.is_some()), u64::from(line.marks.count_ones()), line.broken])
    }
}

impl Engine for Idiomatic {
    type Tally = Plain;

    fn fresh(tasks: &[Task]) -> Idiomatic {
        Idiomatic { clock: 0, lines: tasks.iter().map(Line::fresh).collect() }
    }

    fn act(&mut self, event: &Event) -> Answer {
        self.check(event)?;
        self.lines.iter_mut().for_each(|line| line.expire(event.time));
        match event.kind {
            1 => {
                let line = &mut self.lines[usize::from(event.task)];
                line.miss();
                line.open(event.time);
            }
            2 => self.lines[usize::from(event.task)].meet(),
            _ => {}
        }
        self.clock = event.time;
        Ok(self.choice())
    }

    fn choice(&self) -> Option<Chosen> {
        let open = self.lines.iter().enumerate().filter_map(|(task, line)| line.job.as_ref().map(|job| (task, job.class, line.task.d)));
        // of equal ones it takes the first, which has the smallest position
        open.min_by_key(|&(_, class, d)| (class, d)).map(|(task, class, _)| Chosen { task, class })
    }

    fn last(&self, task: usize) -> u64 {
        self.lines[task].last.unwrap_or(0)
    }

    fn counts(&self) -> Vec<[u64; 5]> {
        self.lines.iter().map(|line| [line.released, line.met, line.missed, line.marks, line.broken]).collect()
    }
}
