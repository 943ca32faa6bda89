//! Rules, "The task table" and "Event record": tasks and events, and their bytes.

pub const TASK_SIZE: usize = 16;
pub const EVENT_SIZE: usize = 20;
/// More bytes of a log, or of the listing's input, are not looked at.
pub const MOST_BYTES: usize = 65_536;
const TASK_MARK: [u8; 2] = [0x54, 0x4B];
const EVENT_MARK: [u8; 2] = [0x45, 0x56];

#[derive(Clone, Copy)]
pub struct Task {
    pub c: u32,
    pub d: u32,
    pub t: u32,
    pub m: u8,
    pub k: u8,
}

#[derive(Clone, Copy)]
pub struct Event {
    pub kind: u8,
    pub task: u8,
    pub job: u64,
    pub time: u64,
}

impl Task {
    pub fn record(&self) -> Vec<u8> {
        [&TASK_MARK[..], &self.c.to_le_bytes(), &self.d.to_le_bytes(), &self.t.to_le_bytes(), &[self.m, self.k]].concat()
    }

    fn read(record: &[u8]) -> Result<Task, u8> {
        let number = |at: usize| u32::from_le_bytes(record[at..at + 4].try_into().unwrap());
        let task = Task { c: number(2), d: number(6), t: number(10), m: record[14], k: record[15] };
        if record[..2] != TASK_MARK {
            return Err(2);
        }
        if task.c < 1 || task.d < task.c || task.t < task.d || task.t > 1_000_000 {
            return Err(3);
        }
        if task.k > 64 || task.m >= task.k || (task.m == 0 && task.k != 1) {
            return Err(4);
        }
        Ok(task)
    }
}

/// The tasks, or the refusal and its position.
pub fn read_table(bytes: &[u8]) -> Result<Vec<Task>, (u8, usize)> {
    if bytes.len() % TASK_SIZE != 0 || !(1..=16).contains(&(bytes.len() / TASK_SIZE)) {
        return Err((1, 0));
    }
    bytes.chunks(TASK_SIZE).enumerate().map(|(position, record)| Task::read(record).map_err(|number| (number, position))).collect()
}

impl Event {
    pub fn record(&self) -> Vec<u8> {
        [&EVENT_MARK[..], &[self.kind, self.task], &self.job.to_le_bytes(), &self.time.to_le_bytes()].concat()
    }

    /// What is wrong with the value alone.
    pub fn fault(&self) -> Option<u8> {
        match self.kind {
            0 if self.task != 0 || self.job != 0 => Some(8),
            1 if self.job != 0 => Some(8),
            0..=2 => None,
            _ => Some(7),
        }
    }

    /// An event of what `chunks` makes of a log: 20 bytes, and fewer at its end.
    pub fn read(bytes: &[u8]) -> Result<Event, u8> {
        let record: &[u8; EVENT_SIZE] = bytes.try_into().map_err(|_| 5)?;
        let number = |at: usize| u64::from_le_bytes(record[at..at + 8].try_into().unwrap());
        if record[..2] != EVENT_MARK {
            return Err(6);
        }
        let event = Event { kind: record[2], task: record[3], job: number(4), time: number(12) };
        event.fault().map_or(Ok(event), Err)
    }
}
