//! Rules, "Choice": the least open job by class, D and position.
use crate::branches::Seen;
use crate::rules::engine::Engine;
use crate::rules::line::Line;

// The position of the chosen job and its class, where a job is open.
pub type Choice = Option<(usize, u64)>;

impl Engine {
    pub fn choice(&self) -> Choice {
        let open = |(i, line): (usize, &Line)| line.open.as_ref().map(|job| (job.class, line.task.d, i));
        self.lines.iter().enumerate().filter_map(open).min().map(|(class, _, i)| (i, class))
    }

    pub fn note_choice(&self, seen: &mut Seen) {
        let mut open: Vec<(u64, u64, usize)> = Vec::new();
        for (i, line) in self.lines.iter().enumerate() {
            if let Some(job) = &line.open {
                open.push((job.class, line.task.d, i));
            }
        }
        open.sort();
        let Some(&(class, d, at)) = open.first() else {
            seen.hit("choice: none");
            return;
        };
        seen.hit_if(class == 1, "choice: class 1");
        seen.hit_if(class >= 2, "choice: class 2 or more");
        seen.hit_if(open.iter().any(|o| o.1 < d), "choice: class decides against D");
        if let Some(&(second, next, _)) = open.get(1) {
            seen.hit_if(second == class && next > d, "choice: D decides");
            seen.hit_if(second == class && next == d, "choice: position decides");
        }
        let mine = self.lines[at].deadline();
        seen.hit_if(open.iter().any(|o| self.lines[o.2].deadline() < mine), "choice: not the earliest deadline");
    }
}
