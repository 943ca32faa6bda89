//! Rules, "Event record": what 20 bytes say of an event, and a log up to the first record that does not read.
use crate::branches::Seen;
use crate::rules::{first_of, number};

#[derive(Clone, Debug)]
pub struct Event {
    pub kind: u8,
    pub task: u8,
    pub job: u64,
    pub time: u64,
}

impl Event {
    pub fn record(&self) -> Vec<u8> {
        let mut out = vec![0x45, 0x56, self.kind, self.task];
        out.extend_from_slice(&self.job.to_le_bytes());
        out.extend_from_slice(&self.time.to_le_bytes());
        out
    }
}

// The events up to the first record that does not read, and that record's refusal and offset.
pub fn read_log(log: &[u8], seen: &mut Seen) -> (Vec<Event>, Option<(u8, usize)>) {
    let mut events = Vec::new();
    let mut at = 0;
    while at < log.len() {
        match read_event(&log[at..], seen) {
            Ok(event) => events.push(event),
            Err(number) => {
                seen.hit(if at == 0 { "read: stop at 0" } else { "read: stop further on" });
                seen.hit_if(log.len() >= at + 40, "read: a record behind the stop");
                return (events, Some((number, at)));
            }
        }
        at += 20;
    }
    (events, None)
}

fn read_event(bytes: &[u8], seen: &mut Seen) -> Result<Event, u8> {
    if bytes.len() < 20 {
        seen.hit("read: 5, 1 to 19 bytes");
        return Err(5);
    }
    let e = Event { kind: bytes[2], task: bytes[3], job: number(&bytes[4..12]), time: number(&bytes[12..20]) };
    let faults: [(bool, u8, &'static str); 6] = [
        (bytes[0] != 0x45, 6, "read: 6, first byte"),
        (bytes[1] != 0x56, 6, "read: 6, second byte"),
        (e.kind > 2, 7, "read: 7"),
        (e.kind == 0 && e.task != 0, 8, "read: 8, tick with a task"),
        (e.kind == 0 && e.job != 0, 8, "read: 8, tick with a job"),
        (e.kind == 1 && e.job != 0, 8, "read: 8, release with a job"),
    ];
    first_of(&faults, "read: faults of two numbers in one record", seen).map_or(Ok(e), Err)
}
