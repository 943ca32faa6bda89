//! Rules, "Window": the outcomes of a task's last K jobs, counted from its whole history.
use crate::branches::Seen;
use crate::rules::line::Line;

impl Line {
    pub fn window(&self) -> u64 {
        let k = self.task.k as usize;
        let from = self.missed.len().saturating_sub(k);
        self.missed[from..].iter().filter(|miss| **miss).count() as u64
    }

    pub fn mark(&mut self, job: u64, miss: bool, seen: &mut Seen) {
        let k = self.task.k as usize;
        self.missed.push(miss);
        let all = self.missed.len();
        seen.hit_if(all > k && self.missed[all - k - 1], "window: a miss drops out");
        seen.hit_if(k == 64 && all > 64, "window: 64 jobs");
        if self.window() > self.task.m {
            if self.broken == 0 {
                seen.hit("window: broken set");
                let three = (self.task.m, self.task.k) == (1, 3) && all >= 3 && self.missed[all - 3..] == [true, false, true];
                seen.hit_if(three, "window: miss, met, miss with (1,3)");
                self.broken = job;
            }
        } else {
            seen.hit_if(self.broken > 0, "window: broken stays though the window is good");
            seen.hit_if(self.broken == 0 && !self.task.hard() && self.window() == self.task.m, "window: m misses and not broken");
        }
    }
}
