//! Rules, "Thresholds and classes": w, h and the top level of a task, from its (m, K).
use crate::rules::table::Task;

impl Task {
    pub fn hard(&self) -> bool {
        self.m == 0
    }

    pub fn w(&self) -> u64 {
        if self.hard() { 0 } else { std::cmp::max(1, self.m / (self.k - self.m)) }
    }

    pub fn h(&self) -> u64 {
        if self.hard() { 1 } else { (self.k - self.m).div_ceil(self.m) }
    }

    pub fn top(&self) -> i64 {
        if self.hard() { 0 } else { (self.k - self.m) as i64 }
    }
}
