//! Rules, "The listing": bytes in, text out, as a Rust programmer writes it.
use crate::records::{read_table, Event, Task, EVENT_SIZE, MOST_BYTES, TASK_SIZE};
use crate::rivals::bounds::bound;
use crate::rivals::idiomatic::Idiomatic;
use crate::rivals::thresholds::Thresholds;
use crate::rivals::Engine;
use std::fmt::{Error, Write};

#[inline(never)]
pub fn list(input: &[u8]) -> String {
    if input.len() > MOST_BYTES {
        return "input too long\n".to_string();
    }
    let mut text = String::new();
    written(&mut text, input).expect("a String takes every text");
    text
}

fn written(text: &mut String, input: &[u8]) -> Result<(), Error> {
    let size = input.first().map_or(0, |n| TASK_SIZE * usize::from(*n));
    let table = input.get(1..1 + size).map_or(Err((1, 0)), read_table);
    match table {
        Ok(tasks) => {
            first_lines(text, &tasks)?;
            let mut engine = Idiomatic::fresh(&tasks);
            event_lines(text, &mut engine, &input[1 + size..])?;
            last_lines(text, &engine)
        }
        Err((number, position)) => writeln!(text, "table refused {number} at {position}"),
    }
}

fn first_lines(text: &mut String, tasks: &[Task]) -> Result<(), Error> {
    for (k, task) in tasks.iter().enumerate() {
        let Thresholds { w, h, .. } = Thresholds::of(task);
        match bound(tasks, k) {
            Some(r) => writeln!(text, "task {k} w {w} h {h} bound {r}")?,
            None => writeln!(text, "task {k} w {w} h {h} bound -")?,
        }
    }
    Ok(())
}

fn event_lines(text: &mut String, engine: &mut Idiomatic, log: &[u8]) -> Result<(), Error> {
    for (i, record) in log.chunks(EVENT_SIZE).enumerate() {
        let event = match Event::read(record) {
            Ok(event) => event,
            Err(number) => return writeln!(text, "stop {number} at {}", EVENT_SIZE * i),
        };
        match engine.act(&event) {
            Ok(Some(chosen)) => writeln!(text, "event {} run {} class {}", i + 1, chosen.task, chosen.class)?,
            Ok(None) => writeln!(text, "event {} idle", i + 1)?,
            Err(number) => writeln!(text, "event {} refused {number}", i + 1)?,
        }
    }
    Ok(())
}

fn last_lines(text: &mut String, engine: &Idiomatic) -> Result<(), Error> {
    for (i, [met, missed, open, window, broken]) in engine.verdicts().enumerate() {
        writeln!(text, "task {i} met {met} missed {missed} open {open} window {window} broken {broken}")?;
    }
    Ok(())
}
