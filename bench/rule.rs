//! The tables of the bench, and the rules by which every side makes its events, one by one: no log is stored that could be learned.
use crate::records::{Event, Task};

const PAIRS: [(u8, u8); 8] = [(1, 2), (2, 3), (1, 3), (2, 5), (3, 5), (63, 64), (1, 64), (0, 1)];

pub fn table(tasks: u64) -> Vec<Task> {
    let task = |i: usize| {
        let d = if tasks == 1 { 22 } else { 11 + i as u32 };
        let (m, k) = PAIRS[(i + 2) % 8];
        Task { c: 1, d, t: d, m, k }
    };
    (0..tasks as usize).map(task).collect()
}

/// What decides the events of a run: 1 to 16 tasks, and rule 1 to 3.
#[derive(Clone, Copy)]
pub struct Run {
    pub tasks: u64,
    pub rule: u64,
    pub count: u64,
    pub seed: u64,
}

impl Run {
    /// The bytes of its table and of its log.
    pub fn bytes(&self) -> (Vec<u8>, Vec<u8>) {
        let tasks = table(self.tasks);
        let mut maker = Maker::new(self, &tasks);
        let log = (0..self.count).flat_map(|_| maker.next(self.rule).record()).collect();
        (tasks.iter().flat_map(Task::record).collect(), log)
    }
}

pub struct Maker {
    tasks: u64,
    spread: u64,
    x: u64,
    time: u64,
    turn: u64,
    lengths: [u64; 16],
    due: [u64; 16],
    free: [u64; 16],
    jobs: [u64; 16],
}

impl Maker {
    pub fn new(run: &Run, table: &[Task]) -> Maker {
        let mut lengths = [0; 16];
        lengths.iter_mut().zip(table).for_each(|(length, task)| *length = u64::from(task.d));
        let none = [0; 16];
        Maker { tasks: run.tasks, spread: 16 / run.tasks, x: run.seed % (1 << 31), time: 0, turn: 0, lengths, due: none, free: none, jobs: none }
    }

    #[inline(always)]
    pub fn next(&mut self, rule: u64) -> Event {
        match rule {
            1 => self.at_random(),
            2 => self.in_turn(),
            _ => self.at_one_tick(),
        }
    }

    /// Chance picks a gap and a task. Its job in time is completed, else one is released where T allows it, else time goes on.
    #[inline(always)]
    fn at_random(&mut self) -> Event {
        self.x = (1_103_515_245 * self.x + 12_345) % (1 << 31);
        self.time += self.x / 4096 % 4 * self.spread;
        let i = (self.x / 65_536 % self.tasks) as usize;
        if self.time <= self.due[i] {
            self.due[i] = 0;
            return Event { kind: 2, task: i as u8, job: self.jobs[i], time: self.time };
        }
        if self.free[i] <= self.time {
            self.due[i] = self.time + self.lengths[i];
            self.free[i] = self.due[i];
            self.jobs[i] += 1;
            return Event { kind: 1, task: i as u8, job: 0, time: self.time };
        }
        Event { kind: 0, task: 0, job: 0, time: self.time }
    }

    /// The tasks in turn, each released and then completed.
    #[inline(always)]
    fn in_turn(&mut self) -> Event {
        let (turn, task) = (self.turn, (self.turn / 2 % self.tasks) as u8);
        self.time += self.spread;
        self.turn += 1;
        if turn % 2 == 0 {
            Event { kind: 1, task, job: 0, time: self.time }
        } else {
            Event { kind: 2, task, job: turn / 2 / self.tasks + 1, time: self.time }
        }
    }

    /// All tasks released at one tick, then all completed.
    #[inline(always)]
    fn at_one_tick(&mut self) -> Event {
        let (round, place) = (self.turn / (2 * self.tasks), self.turn % (2 * self.tasks));
        self.turn += 1;
        if place < self.tasks {
            return Event { kind: 1, task: place as u8, job: 0, time: 32 * round };
        }
        let task = place - self.tasks;
        Event { kind: 2, task: task as u8, job: round + 1, time: 32 * round + task / 2 }
    }
}
