//! One task as it runs: its open job, and a release or a completion of its own (Rules, "Events and the clock").
use crate::branches::Seen;
use crate::rules::events::Event;
use crate::rules::table::Task;

#[derive(Clone)]
pub struct Job {
    pub number: u64,
    pub release: u64,
    pub class: u64,
}

// One task's line: its whole history of outcomes, oldest first, true for a miss.
#[derive(Clone)]
pub struct Line {
    pub task: Task,
    pub level: i64,
    pub run: u64,
    pub open: Option<Job>,
    pub last: Option<u64>,
    pub released: u64,
    pub missed: Vec<bool>,
    pub broken: u64,
}

impl Line {
    pub fn fresh(task: &Task) -> Line {
        Line { level: 1 - task.h() as i64, task: task.clone(), run: 0, open: None, last: None, released: 0, missed: Vec::new(), broken: 0 }
    }

    pub fn deadline(&self) -> Option<u64> {
        self.open.as_ref().map(|job| job.release + self.task.d)
    }

    pub fn release(&mut self, time: u64, seen: &mut Seen, noted: &mut Seen) -> Option<u8> {
        match self.last {
            Some(last) if time < last + self.task.t => {
                seen.hit("event: 11");
                seen.hit_if(self.open.is_some(), "event: 11, a job is open");
                return Some(11);
            }
            Some(last) => noted.hit_if(time == last + self.task.t, "event: release at its spacing"),
            None => noted.hit_if(time > 0, "event: first release is late"),
        }
        if self.open.is_some() {
            assert_eq!(self.deadline(), Some(time));
            noted.hit("close: at the deadline by a release");
            self.close_missed(noted);
        }
        self.released += 1;
        self.last = Some(time);
        self.open = Some(Job { number: self.released, release: time, class: self.class() });
        None
    }

    pub fn complete(&mut self, e: &Event, before: Option<&Job>, seen: &mut Seen, noted: &mut Seen) -> Option<u8> {
        let wanted = self.open.as_ref().filter(|job| job.number == e.job);
        let Some(job) = wanted else {
            seen.hit(match (&self.open, before) {
                _ if e.job == 0 => "event: 12, job 0",
                (Some(_), _) => "event: 12, another job is open",
                (None, Some(job)) if job.number == e.job => "event: 12, the job has expired",
                (None, _) => "event: 12, nothing open",
            });
            return Some(12);
        };
        noted.hit_if(self.deadline() == Some(e.time), "close: met at the deadline");
        noted.hit_if(job.release == e.time, "close: met at its release");
        self.close_met(noted);
        None
    }
}
