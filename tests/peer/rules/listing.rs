//! Rules, "The listing": the text of an input, line by line.
use crate::branches::Seen;
use crate::rules::bounds::bound;
use crate::rules::choice::Choice;
use crate::rules::engine::{run, Engine};
use crate::rules::events::read_log;
use crate::rules::table::{read_table, Task};
use crate::rules::MOST;

pub fn listing(input: &[u8], seen: &mut Seen) -> String {
    if input.len() > MOST {
        seen.hit("listing: too long");
        return "input too long\n".to_string();
    }
    seen.hit_if(input.len() == MOST, "listing: 65,536 bytes");
    let n = input.first().map_or(0, |b| *b as usize);
    let size = 16 * n;
    if n < 1 || n > 16 || input.len() < 1 + size {
        seen.hit(match (input.is_empty(), n) {
            (true, _) => "listing: nothing",
            (false, 0) => "listing: n is 0",
            (false, 17..) => "listing: n above 16",
            (false, _) => "listing: table cut",
        });
        return "table refused 1 at 0\n".to_string();
    }
    let tasks = match read_table(&input[1..1 + size], seen) {
        Ok(tasks) => tasks,
        Err((number, position)) => return format!("table refused {number} at {position}\n"),
    };
    let mut text = first_lines(&tasks, seen);
    let (events, stop) = read_log(&input[1 + size..], seen);
    let (answers, engine) = run(&tasks, &events, seen);
    text += &event_lines(&answers);
    if let Some((number, offset)) = stop {
        text += &format!("stop {number} at {offset}\n");
    }
    text + &last_lines(&engine)
}

fn first_lines(tasks: &[Task], seen: &mut Seen) -> String {
    let mut text = String::new();
    let bounds: Vec<Option<u64>> = (0..tasks.len()).map(|k| bound(tasks, k)).collect();
    for (i, task) in tasks.iter().enumerate() {
        seen.hit(if bounds[i].is_some() { "bound: found" } else { "bound: none" });
        seen.hit_if(bounds[i] == Some(task.d), "bound: D itself");
        seen.hit_if(task.hard(), "listing: a hard task's w");
        let shown = bounds[i].map_or("-".to_string(), |r| r.to_string());
        text += &format!("task {i} w {} h {} bound {shown}\n", task.w(), task.h());
    }
    seen.hit_if(bounds[0].is_none() && bounds.iter().any(|b| b.is_some()), "bound: none at 0 and one further on");
    let equal = |i: usize| tasks.iter().enumerate().any(|(j, other)| j != i && other.d == tasks[i].d);
    seen.hit_if((0..tasks.len()).any(|i| equal(i) && bounds[i].is_some()), "bound: equal D above and below");
    text
}

fn event_lines(answers: &[Result<Choice, u8>]) -> String {
    let mut text = String::new();
    for (i, answer) in answers.iter().enumerate() {
        let said = match answer {
            Ok(Some((position, class))) => format!("run {position} class {class}"),
            Ok(None) => "idle".to_string(),
            Err(number) => format!("refused {number}"),
        };
        text += &format!("event {} {said}\n", i + 1);
    }
    text
}

fn last_lines(engine: &Engine) -> String {
    let mut text = String::new();
    for (i, line) in engine.lines.iter().enumerate() {
        let missed = line.missed.iter().filter(|miss| **miss).count();
        let met = line.missed.len() - missed;
        let open = u64::from(line.open.is_some());
        assert_eq!(line.released, line.missed.len() as u64 + open);
        text += &format!("task {i} met {met} missed {missed} open {open} window {} broken {}\n", line.window(), line.broken);
    }
    text
}
