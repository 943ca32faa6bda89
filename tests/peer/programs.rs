//! The two programs run on many cases at once, and taken apart what they wrote: one answer for each case.
use crate::cases::Case;
use crate::fail;
use crate::rules::number;
use std::io::{Read, Write};
use std::process::{Command, Stdio};
use std::thread;

fn started(command: &str) -> Command {
    let mut words = command.split_whitespace();
    let mut out = Command::new(words.next().unwrap_or_else(|| fail("no command")));
    out.args(words);
    out
}

// What a program writes for its standard input, and how it ended where that was not well.
fn wrote(command: &str, input: &[u8]) -> (Vec<u8>, Option<String>) {
    let mut child = started(command).stdin(Stdio::piped()).stdout(Stdio::piped()).spawn().unwrap_or_else(|e| fail(&format!("{command}: {e}")));
    let mut pipe = child.stdin.take().unwrap();
    let mut out = Vec::new();
    thread::scope(|both| {
        // a program may stop reading before the end
        both.spawn(move || {
            let _ = pipe.write_all(input);
        });
        child.stdout.take().unwrap().read_to_end(&mut out).unwrap_or_else(|e| fail(&format!("{command}: {e}")));
    });
    let status = child.wait().unwrap_or_else(|e| fail(&format!("{command}: {e}")));
    (out, if status.success() { None } else { Some(status.to_string()) })
}

// One answer for each case. What is written behind the last answer, and an end that is not a good one, stand in the last answer, so that it differs.
fn with_end(mut answers: Vec<Vec<u8>>, count: usize, more: &[u8], ended: Option<String>) -> Vec<Vec<u8>> {
    answers.resize(count, b"no answer".to_vec());
    if let Some(last) = answers.last_mut() {
        if !more.is_empty() {
            last.extend_from_slice(b"\nand behind the last answer:\n");
            last.extend_from_slice(&more[..std::cmp::min(more.len(), 200)]);
        }
        if let Some(status) = ended {
            last.extend_from_slice(format!("\nand it ended with {status}").as_bytes());
        }
    }
    answers
}

// The rig's code of each case, a line each.
pub fn codes(command: &str, cases: &[Case]) -> Vec<Vec<u8>> {
    let mut frames = Vec::new();
    for case in cases {
        frames.extend_from_slice(&(case.table.len() as u32).to_le_bytes());
        frames.extend_from_slice(&(case.log.len() as u32).to_le_bytes());
        frames.extend_from_slice(&case.table);
        frames.extend_from_slice(&case.log);
    }
    let (all, ended) = wrote(command, &frames);
    let out: Vec<Vec<u8>> = all.split_inclusive(|b| *b == b'\n').take(cases.len()).map(|line| line.to_vec()).collect();
    let at = out.iter().map(|line| line.len()).sum();
    with_end(out, cases.len(), &all[at..], ended)
}

// What the listing says of each case: every input and every text has four bytes of size before it.
pub fn texts(command: &str, cases: &[Case]) -> Vec<Vec<u8>> {
    let mut frames = Vec::new();
    for case in cases {
        let input = case.input();
        frames.extend_from_slice(&(input.len() as u32).to_le_bytes());
        frames.extend_from_slice(&input);
    }
    let (all, ended) = wrote(command, &frames);
    let (mut at, mut out) = (0, Vec::new());
    while all.len() >= at + 4 && out.len() < cases.len() {
        let end = at + 4 + number(&all[at..at + 4]) as usize;
        if all.len() < end {
            // a text that is cut is no answer
            break;
        }
        out.push(all[at + 4..end].to_vec());
        at = end;
    }
    with_end(out, cases.len(), &all[at..], ended)
}
