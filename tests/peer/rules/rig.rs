//! Rules, "The bench rig": the code of table bytes and log bytes.
use crate::branches::Seen;
use crate::rules::engine::run;
use crate::rules::events::read_log;
use crate::rules::table::read_table;
use crate::rules::MOST;

pub fn rig(table: &[u8], log: &[u8], seen: &mut Seen) -> u32 {
    let code = rig_code(table, log, seen);
    if seen.on {
        seen.codes[code as usize] += 1;
    }
    code
}

fn rig_code(table: &[u8], log: &[u8], seen: &mut Seen) -> u32 {
    let mut quiet = Seen::new(false);
    if log.len() > MOST {
        seen.hit("rig: too long");
        seen.hit_if(read_table(table, &mut quiet).is_err(), "rig: too long with a bad table");
        return 64;
    }
    seen.hit_if(log.len() == MOST, "rig: 65,536 bytes");
    let tasks = match read_table(table, seen) {
        Ok(tasks) => tasks,
        Err((number, _)) => {
            seen.hit_if(read_log(log, &mut quiet).1.is_some(), "rig: bad table and bad record");
            return 32 + u32::from(number);
        }
    };
    let (events, stop) = read_log(log, seen);
    let (answers, _) = run(&tasks, &events, seen);
    if let Some((number, _)) = stop {
        seen.hit_if(matches!(answers.last(), Some(Err(_))), "rig: bad record and a last event that is refused");
        return 32 + u32::from(number);
    }
    seen.hit_if(answers.len() > 1 && answers[answers.len() - 2].is_err() && answers[answers.len() - 1].is_ok(), "rig: an earlier refusal does not show");
    seen.hit_if(answers.is_empty(), "rig: empty log");
    match answers.last() {
        None | Some(Ok(None)) => 16,
        Some(Ok(Some((position, _)))) => *position as u32,
        Some(Err(number)) => 32 + u32::from(*number),
    }
}
