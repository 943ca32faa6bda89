//! The engine tuned by hand: rows of 16, class and D and position packed into one key, the next deadline and the least key kept from event to event.
use crate::records::{Event, Task};
use crate::rivals::tally::Packed;
use crate::rivals::thresholds::Thresholds;
use crate::rivals::{Answer, Chosen, Engine};

/// Where no job is open.
const NO_KEY: u32 = u32::MAX;
const NO_DEADLINE: u64 = u64::MAX;

/// What of a task is needed when one of its jobs opens or closes.
#[derive(Clone, Copy, Default)]
struct Line {
    last: u64,
    released: u64,
    met: u64,
    missed: u64,
    marks: u64,
    broken: u64,
    window: u64,
    d: u32,
    t: u32,
    m: u32,
    w: u32,
    run: u32,
    /// D and position: the key without the class.
    place: u32,
    level: i32,
    lowest: i32,
    top: i32,
}

impl Line {
    fn fresh(position: usize, task: &Task) -> Line {
        let limits = Thresholds::of(task);
        Line {
            window: u64::MAX >> (64 - u32::from(task.k)),
            d: task.d,
            t: task.t,
            m: u32::from(task.m),
            w: limits.w,
            place: task.d << 4 | position as u32,
            level: limits.lowest,
            lowest: limits.lowest,
            top: limits.top,
            ..Line::default()
        }
    }

    fn mark(&mut self, miss: u64) {
        self.marks = (self.marks << 1 | miss) & self.window;
        if self.broken == 0 && self.marks.count_ones() > self.m {
            self.broken = self.released;
        }
    }

    fn meet(&mut self) {
        self.met += 1;
        self.level = (self.level + 1).min(self.top);
        self.run = 0;
        self.mark(0);
    }

    fn miss(&mut self) {
        self.missed += 1;
        let back = self.level <= 0 || self.run + 1 == self.w;
        self.level = if back { self.lowest } else { self.level };
        self.run = if back { 0 } else { self.run + 1 };
        self.mark(1);
    }

    /// Opens a job, and answers its key and its deadline.
    fn open(&mut self, time: u64) -> (u32, u64) {
        self.released += 1;
        self.last = time;
        ((self.level.max(0) as u32) << 24 | self.place, time + u64::from(self.d))
    }
}

pub struct Tuned {
    clock: u64,
    tasks: usize,
    /// No open job's deadline is before it.
    next: u64,
    least: u32,
    keys: [u32; 16],
    due: [u64; 16],
    lines: [Line; 16],
}

impl Tuned {
    fn look(&mut self) {
        if self.tasks == 1 {
            (self.next, self.least) = (self.due[0], self.keys[0]);
            return;
        }
        self.next = self.due.iter().fold(NO_DEADLINE, |next, due| next.min(*due));
        self.least = self.keys.iter().fold(NO_KEY, |least, key| least.min(*key));
    }

    fn sweep(&mut self, time: u64) {
        for i in 0..self.tasks {
            if self.due[i] < time {
                self.lines[i].miss();
                (self.keys[i], self.due[i]) = (NO_KEY, NO_DEADLINE);
            }
        }
        self.look();
    }

    fn release(&mut self, i: usize, time: u64) -> Result<(), u8> {
        let line = &mut self.lines[i];
        if line.released != 0 && time < line.last + u64::from(line.t) {
            return Err(11);
        }
        // a job that is still open is at its deadline or past it; a miss raises no class, so that the new key is not above the old one
        if self.due[i] != NO_DEADLINE {
            line.miss();
        }
        (self.keys[i], self.due[i]) = line.open(time);
        self.next = self.next.min(self.due[i]);
        self.least = self.least.min(self.keys[i]);
        Ok(())
    }

    fn complete(&mut self, i: usize, job: u64, time: u64) -> Result<(), u8> {
        let line = &mut self.lines[i];
        if self.due[i] == NO_DEADLINE || self.due[i] < time || line.released != job {
            return Err(12);
        }
        line.meet();
        let was = self.keys[i];
        (self.keys[i], self.due[i]) = (NO_KEY, NO_DEADLINE);
        if was == self.least {
            self.look();
        }
        Ok(())
    }
}

impl Engine for Tuned {
    type Tally = Packed;

    fn fresh(tasks: &[Task]) -> Tuned {
        let mut lines = [Line::default(); 16];
        lines.iter_mut().zip(tasks).enumerate().for_each(|(position, (line, task))| *line = Line::fresh(position, task));
        Tuned { clock: 0, tasks: tasks.len(), next: NO_DEADLINE, least: NO_KEY, keys: [NO_KEY; 16], due: [NO_DEADLINE; 16], lines }
    }

    #[inline(always)]
    fn act(&mut self, event: &Event) -> Answer {
        if event.time > 1_000_000_000_000 || event.time < self.clock {
            return Err(9);
        }
        if event.kind != 0 {
            let i = usize::from(event.task);
            if i >= self.tasks {
                return Err(10);
            }
            if event.kind == 1 {
                self.release(i, event.time)?;
            } else {
                self.complete(i, event.job, event.time)?;
            }
        }
        if self.next < event.time {
            self.sweep(event.time);
        }
        self.clock = event.time;
        Ok(self.choice())
    }

    fn choice(&self) -> Option<Chosen> {
        (self.least != NO_KEY).then_some(Chosen { task: (self.least & 15) as usize, class: self.least >> 24 })
    }

    fn last(&self, task: usize) -> u64 {
        self.lines[task].last
    }

    fn counts(&self) -> Vec<[u64; 5]> {
        self.lines[..self.tasks].iter().map(|line| [line.released, line.met, line.missed, line.marks, line.broken]).collect()
    }
}
