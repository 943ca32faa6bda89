//! Logs for a table: the events are made beside an engine that runs along, so that most are accepted and each refusal is met.
use crate::branches::Seen;
use crate::cases::random::Random;
use crate::rules::engine::Engine;
use crate::rules::events::Event;
use crate::rules::table::Task;
use crate::rules::LIMIT;

// How a log goes: how often jobs are completed, how often an event is one that should be refused, how far time jumps.
struct Mood {
    complete: u64,
    bad: u64,
    tick: u64,
    slack: u64,
}

fn some_time(r: &mut Random, engine: &Engine, mood: &Mood) -> u64 {
    let now = engine.clock;
    let deadlines: Vec<u64> = engine.lines.iter().filter_map(|line| line.deadline()).collect();
    let at = match r.from(0, 9) {
        0..=2 => now,
        3..=4 => now + r.from(0, mood.slack),
        5..=6 if !deadlines.is_empty() => r.of(&deadlines),
        7 if !deadlines.is_empty() => r.of(&deadlines) + 1,
        _ => now + r.from(0, 3),
    };
    std::cmp::min(std::cmp::max(at, now), LIMIT)
}

fn some_release(r: &mut Random, engine: &Engine, mood: &Mood) -> Event {
    let of = r.from(0, engine.lines.len() as u64 - 1) as usize;
    let line = &engine.lines[of];
    let ready = line.last.map_or(0, |last| last + line.task.t);
    let time = if r.chance(60) { std::cmp::max(ready, engine.clock) } else { std::cmp::max(ready, some_time(r, engine, mood)) };
    Event { kind: 1, task: of as u8, job: 0, time: std::cmp::min(time, LIMIT) }
}

fn some_completion(r: &mut Random, engine: &Engine, mood: &Mood) -> Option<Event> {
    let open: Vec<usize> = (0..engine.lines.len()).filter(|&i| engine.lines[i].open.is_some()).collect();
    let chosen = engine.choice()?.0;
    let of = if r.chance(70) { chosen } else { r.of(&open) };
    let line = &engine.lines[of];
    let deadline = line.deadline().unwrap();
    let time = match r.from(0, 9) {
        0..=1 => deadline,
        2..=3 => engine.clock,
        _ => std::cmp::min(deadline, engine.clock + r.from(0, mood.slack)),
    };
    Some(Event { kind: 2, task: of as u8, job: line.released, time: std::cmp::min(time, LIMIT) })
}

fn some_bad(r: &mut Random, engine: &Engine, mood: &Mood) -> Event {
    let n = engine.lines.len() as u64;
    let of = r.from(0, n - 1) as usize;
    let line = &engine.lines[of];
    let kind = r.from(0, 2) as u8;
    let task = if kind == 0 { 0 } else { of as u8 };
    let job = if kind == 2 { line.released } else { 0 };
    let early = engine.clock.saturating_sub(r.from(1, 3));
    let beyond = r.of(&[LIMIT + 1, LIMIT + 2, u64::MAX, 1 << 40]);
    // some break two rules
    let time = if r.chance(15) { r.of(&[early, beyond]) } else { some_time(r, engine, mood) };
    match r.from(0, 7) {
        0 => Event { kind, task, job, time: early },
        1 => Event { kind, task, job, time: beyond },
        2 => Event { kind: r.from(1, 2) as u8, task: r.of(&[n, n + 1, 16, 255]) as u8, job: 0, time },
        3 | 4 => {
            let ready = line.last.map_or(0, |last| last + line.task.t);
            let soon = ready.saturating_sub(r.from(1, 2));
            Event { kind: 1, task: of as u8, job: 0, time: std::cmp::min(std::cmp::max(soon, engine.clock), LIMIT) }
        }
        5 => Event { kind: 2, task: of as u8, job: r.of(&[0, line.released + 1, line.released.wrapping_sub(1), u64::MAX]), time },
        6 => Event { kind: 2, task: of as u8, job: line.released, time: line.deadline().map_or(time, |d| std::cmp::min(d + r.from(1, 2), LIMIT)) },
        _ => Event { kind: 2, task: of as u8, job: line.released, time },
    }
}

fn some_event(r: &mut Random, engine: &Engine, mood: &Mood) -> Event {
    if r.chance(mood.bad) {
        return some_bad(r, engine, mood);
    }
    if r.chance(mood.tick) {
        return Event { kind: 0, task: 0, job: 0, time: some_time(r, engine, mood) };
    }
    if r.chance(mood.complete) {
        if let Some(event) = some_completion(r, engine, mood) {
            return event;
        }
    }
    some_release(r, engine, mood)
}

pub fn some_events(r: &mut Random, tasks: &[Task]) -> Vec<Event> {
    let size = match r.from(0, 199) {
        0..=29 => r.from(0, 3),
        30..=139 => r.from(3, 30),
        140..=191 => r.from(20, 120),
        192..=198 => r.from(120, 600),
        _ => r.from(600, 3276),
    };
    let mood = Mood {
        complete: r.of(&[0, 30, 50, 60, 80, 90]),
        bad: r.of(&[0, 3, 10, 40]),
        tick: r.of(&[0, 5, 30]),
        slack: r.of(&[1, 3, 20, 1000]),
    };
    let mut quiet = Seen::new(false);
    let mut engine = Engine::fresh(tasks);
    let mut events = Vec::new();
    // some logs begin near the end of time
    if r.chance(4) {
        events.push(Event { kind: 0, task: 0, job: 0, time: LIMIT - r.from(0, 50) });
        let _ = engine.apply(&events[0], &mut quiet);
    }
    while (events.len() as u64) < size {
        let event = some_event(r, &engine, &mood);
        let _ = engine.apply(&event, &mut quiet);
        events.push(event);
    }
    events
}
