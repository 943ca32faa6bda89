//! The rivals, written from the rules (docs/RULES.md): they give the same answers, keep the same windows and counts, and test no state for soundness.
use crate::records::{read_table, Event, Task, EVENT_SIZE, MOST_BYTES};
use crate::rule::{table, Maker, Run};
use crate::sums::{answer_code, event_code, fold, refusal_code, with_counts};
use tally::{with_tally, Tally};

pub mod bounds;
pub mod idiomatic;
pub mod listing;
pub mod tally;
mod thresholds;
pub mod tuned;

#[derive(Clone, Copy)]
pub struct Chosen {
    pub task: usize,
    pub class: u32,
}

/// The choice after an event that was accepted, or its refusal.
pub type Answer = Result<Option<Chosen>, u8>;

pub trait Engine {
    /// A tally in the engine's own manner.
    type Tally: Tally;
    fn fresh(tasks: &[Task]) -> Self;
    /// Applies an event whose value is right.
    fn act(&mut self, event: &Event) -> Answer;
    fn choice(&self) -> Option<Chosen>;
    /// When the last job of a task was released that had one.
    fn last(&self, task: usize) -> u64;
    fn counts(&self) -> Vec<[u64; 5]>;
}

/// The events of a run and nothing else.
#[inline(never)]
pub fn rule_alone(run: Run) -> u64 {
    let mut maker = Maker::new(&run, &table(run.tasks));
    (0..run.count).fold(0, |sum, _| fold(sum, event_code(&maker.next(run.rule))))
}

/// The sum of the answers to a run's events, and the engine at their end.
#[inline(always)]
fn applied<E: Engine>(run: Run) -> (u64, E) {
    let tasks = table(run.tasks);
    let (mut maker, mut engine) = (Maker::new(&run, &tasks), E::fresh(&tasks));
    let mut sum = 0;
    for _ in 0..run.count {
        let event = maker.next(run.rule);
        let answer = event.fault().map_or_else(|| engine.act(&event), Err);
        sum = fold(sum, answer_code(answer));
    }
    (sum, engine)
}

#[inline(never)]
pub fn apply<E: Engine>(run: Run) -> u64 {
    let (sum, engine) = applied::<E>(run);
    with_counts(sum, &engine.counts())
}

/// How many of a run's closed jobs were missed, in percent.
pub fn missed(run: Run) -> u64 {
    let counts = applied::<tuned::Tuned>(run).1.counts();
    let (met, missed) = counts.iter().fold((0, 0), |(met, missed), line| (met + line[1], missed + line[2]));
    100 * missed / (met + missed).max(1)
}

#[inline(never)]
pub fn log<E: Engine>(table: &[u8], log: &[u8]) -> u64 {
    let tasks = match read_table(table) {
        Ok(tasks) => tasks,
        Err((number, _)) => return refusal_code(number),
    };
    let mut engine = E::fresh(&tasks);
    let mut answer = Ok(engine.choice());
    for record in log.chunks(EVENT_SIZE) {
        let Ok(event) = Event::read(record) else { break };
        answer = engine.act(&event);
    }
    with_counts(answer_code(answer), &engine.counts())
}

/// The bytes of a log that are reported on at once: 3,276 records.
pub const CHUNK: usize = 65_520;

/// Where a record does not read: its refusal, and its offset in the chunk.
type Ending = Option<(u8, usize)>;

/// Rules, "Report": the responses of a chunk's met jobs on top of the tallies, or the refusal of the report.
#[inline(always)]
fn report<E: Engine>(tasks: &[Task], engine: &mut E, tallies: &mut [E::Tally], chunk: &[u8]) -> Result<Ending, u8> {
    if tasks.iter().zip(&*tallies).any(|(task, tally)| task.d != tally.d()) {
        return Err(16);
    }
    for (index, record) in chunk.chunks(EVENT_SIZE).enumerate() {
        let event = match Event::read(record) {
            Ok(event) => event,
            Err(number) => return Ok(Some((number, EVENT_SIZE * index))),
        };
        if engine.act(&event).is_ok() && event.kind == 2 {
            let task = usize::from(event.task);
            tallies[task].add(event.time - engine.last(task))?;
        }
    }
    Ok(None)
}

/// The report of a log, chunk by chunk: what ended the reading, and then all tallies.
#[inline(never)]
pub fn tallied<E: Engine>(table: &[u8], log: &[u8]) -> u64 {
    let tasks = match read_table(table) {
        Ok(tasks) => tasks,
        Err((number, _)) => return refusal_code(number),
    };
    let mut engine = E::fresh(&tasks);
    let mut tallies: Vec<_> = tasks.iter().map(|task| E::Tally::fresh(task.d)).collect();
    let mut ending = None;
    for chunk in log.chunks(CHUNK) {
        match report(&tasks, &mut engine, &mut tallies, chunk) {
            Ok(end) => ending = end,
            Err(number) => return refusal_code(number),
        }
        if ending.is_some() {
            break;
        }
    }
    let (number, offset) = ending.unwrap_or((0, 0));
    tallies.iter().fold(fold(number.into(), offset as u64), with_tally)
}

/// Rules, "The bench rig".
#[inline(never)]
pub fn choice<E: Engine>(table: &[u8], log: &[u8]) -> u32 {
    if log.len() > MOST_BYTES {
        return 64;
    }
    let tasks = match read_table(table) {
        Ok(tasks) => tasks,
        Err((number, _)) => return 32 + u32::from(number),
    };
    let mut engine = E::fresh(&tasks);
    let mut answer = Ok(None);
    for record in log.chunks(EVENT_SIZE) {
        match Event::read(record) {
            Ok(event) => answer = engine.act(&event),
            Err(number) => return 32 + u32::from(number),
        }
    }
    match answer {
        Ok(chosen) => chosen.map_or(16, |chosen| chosen.task as u32),
        Err(number) => 32 + u32::from(number),
    }
}
