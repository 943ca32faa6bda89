//! The sum over all answers and counts of a run. Sides that differ in one answer differ in it.
use crate::records::Event;
use crate::rivals::Answer;

const ROOM: u64 = 1 << 40;

pub fn fold(sum: u64, code: u64) -> u64 {
    (3 * sum + code) % ROOM
}

pub fn answer_code(answer: Answer) -> u64 {
    match answer {
        Ok(Some(chosen)) => 64 * chosen.task as u64 + u64::from(chosen.class),
        Ok(None) => 1024,
        Err(number) => refusal_code(number),
    }
}

pub fn refusal_code(number: u8) -> u64 {
    2048 + u64::from(number)
}

pub fn event_code(event: &Event) -> u64 {
    u64::from(event.kind) + u64::from(event.task) + event.job % ROOM + event.time % ROOM
}

/// For each task what was released, met and missed, its marks and `broken`.
pub fn with_counts(sum: u64, counts: &[[u64; 5]]) -> u64 {
    counts.iter().flatten().fold(sum, |sum, count| fold(sum, count % ROOM))
}
