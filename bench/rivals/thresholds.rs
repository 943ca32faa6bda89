//! Rules, "Thresholds and classes": what follows from (m, K), worked out once for each task.
use crate::records::Task;

#[derive(Clone, Copy)]
pub struct Thresholds {
    pub w: u32,
    pub h: u32,
    /// The lowest level, where a task begins and to which it is set back.
    pub lowest: i32,
    pub top: i32,
}

impl Thresholds {
    pub fn of(task: &Task) -> Thresholds {
        let (m, k) = (u32::from(task.m), u32::from(task.k));
        if m == 0 {
            return Thresholds { w: 0, h: 1, lowest: 0, top: 0 };
        }
        let (w, h) = ((m / (k - m)).max(1), (k - m).div_ceil(m));
        Thresholds { w, h, lowest: 1 - h as i32, top: (k - m) as i32 }
    }
}
