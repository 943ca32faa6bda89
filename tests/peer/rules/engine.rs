//! Rules, "Events and the clock": all tasks and the clock; an event is applied whole or refused and leaves nothing.
use crate::branches::Seen;
use crate::rules::choice::Choice;
use crate::rules::events::Event;
use crate::rules::line::Line;
use crate::rules::table::Task;
use crate::rules::LIMIT;

#[derive(Clone)]
pub struct Engine {
    pub clock: u64,
    pub lines: Vec<Line>,
}

impl Engine {
    pub fn fresh(tasks: &[Task]) -> Engine {
        Engine { clock: 0, lines: tasks.iter().map(Line::fresh).collect() }
    }

    // What an accepted event did to the engine as it was before.
    pub fn note_accepted(&self, e: &Event, late: u64, noted: &mut Seen) {
        let chosen = self.choice().map(|c| c.0) == Some(e.task as usize);
        noted.hit_if(e.kind == 2 && chosen, "close: met by the choice");
        noted.hit_if(e.kind == 2 && !chosen, "close: met by another job");
        noted.hit_if(late == 1, "close: late, one job");
        noted.hit_if(late > 1, "close: late, several jobs at once");
        noted.hit_if(e.time == LIMIT, "event: accepted at the limit");
        noted.hit_if(e.time == self.clock, "event: accepted at the clock");
    }

    pub fn apply(&mut self, e: &Event, seen: &mut Seen) -> Result<(), u8> {
        if e.time > LIMIT || e.time < self.clock {
            seen.hit(if e.time > LIMIT { "event: 9, above the limit" } else { "event: 9, before the clock" });
            seen.hit_if(e.kind != 0 && e.task as usize >= self.lines.len(), "event: 9 and no such task");
            return Err(9);
        }
        let of = e.task as usize;
        if e.kind != 0 && of >= self.lines.len() {
            seen.hit(if e.kind == 1 { "event: 10, release" } else { "event: 10, completion" });
            return Err(10);
        }
        let mut next = self.clone();
        // what is seen on the way counts only where the event is accepted
        let mut noted = Seen::new(seen.on);
        let mut late = 0;
        for line in &mut next.lines {
            if line.deadline().is_some_and(|d| d < e.time) {
                line.close_missed(&mut noted);
                late += 1;
            }
        }
        let refused = match e.kind {
            0 => None,
            1 => next.lines[of].release(e.time, seen, &mut noted),
            _ => next.lines[of].complete(e, self.lines[of].open.as_ref(), seen, &mut noted),
        };
        if let Some(number) = refused {
            seen.hit_if(late > 0, "event: refused, and step 1 undone");
            return Err(number);
        }
        self.note_accepted(e, late, &mut noted);
        next.clock = e.time;
        *self = next;
        self.note_choice(&mut noted);
        seen.add(&noted);
        Ok(())
    }
}

// What each event is answered, and the engine at the end.
pub fn run(tasks: &[Task], events: &[Event], seen: &mut Seen) -> (Vec<Result<Choice, u8>>, Engine) {
    let mut engine = Engine::fresh(tasks);
    let mut refused_at = 0;
    let mut answers = Vec::new();
    for event in events {
        let answer = engine.apply(event, seen).map(|()| engine.choice());
        match answer {
            Ok(_) => seen.hit_if(event.time < refused_at, "event: accepted at a time before one that was refused"),
            Err(_) if event.time <= LIMIT => refused_at = std::cmp::max(refused_at, event.time),
            Err(_) => {}
        }
        answers.push(answer);
    }
    (answers, engine)
}
