//! Rules, "Thresholds and classes": what a closed job does to its task's level and run.
use crate::branches::Seen;
use crate::rules::line::Line;

impl Line {
    pub fn class(&self) -> u64 {
        std::cmp::max(0, self.level) as u64
    }

    pub fn close_met(&mut self, seen: &mut Seen) {
        let job = self.open.take().unwrap();
        seen.hit(if self.level == self.task.top() { "close: met at the top" } else { "close: met below the top" });
        seen.hit_if(self.run > 0, "close: met, a run ends");
        seen.hit_if(self.task.hard(), "close: hard task met");
        self.level = std::cmp::min(self.level + 1, self.task.top());
        self.run = 0;
        self.mark(job.number, false, seen);
    }

    pub fn close_missed(&mut self, seen: &mut Seen) {
        let job = self.open.take().unwrap();
        seen.hit_if(self.task.hard(), "close: hard task missed");
        if self.class() == 0 || self.run + 1 >= self.task.w() {
            seen.hit(if self.class() == 0 { "close: missed in class 0" } else { "close: missed, the run reaches w" });
            self.level = 1 - self.task.h() as i64;
            self.run = 0;
        } else {
            seen.hit("close: missed, the run rises");
            self.run += 1;
        }
        self.mark(job.number, true, seen);
    }
}
