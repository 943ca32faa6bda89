//! The programs against the peer's own answers, on cases of a seed.
use crate::branches::Seen;
use crate::cases::random::Random;
use crate::cases::{some_case, Case};
use crate::differences::report;
use crate::fail;
use crate::programs::{codes, texts};
use crate::rules::listing::listing;
use crate::rules::rig::rig;
use std::thread;

// The peer's own line of a case.
fn code_line(case: &Case) -> String {
    format!("{}\n", rig(&case.table, &case.log, &mut Seen::new(false)))
}

fn rig_differs<'a>(command: &'a str) -> impl Fn(&[Case]) -> Vec<bool> + 'a {
    move |cases: &[Case]| codes(command, cases).iter().zip(cases).map(|(said, case)| *said != code_line(case).as_bytes()).collect()
}

fn listing_differs<'a>(command: &'a str) -> impl Fn(&[Case]) -> Vec<bool> + 'a {
    move |cases: &[Case]| {
        let mut quiet = Seen::new(false);
        texts(command, cases).iter().zip(cases).map(|(said, case)| *said != listing(&case.input(), &mut quiet).as_bytes()).collect()
    }
}

// Every case through the listing, in as many parts as the machine has processors; the first that differs.
fn listing_first(command: &str, cases: &[Case]) -> Option<usize> {
    let part = cases.len().div_ceil(thread::available_parallelism().map_or(2, |n| n.get()));
    thread::scope(|all| {
        let parts: Vec<_> = cases.chunks(part).map(|some| all.spawn(|| listing_differs(command)(some).iter().position(|d| *d))).collect();
        let firsts: Vec<_> = parts.into_iter().map(|one| one.join().unwrap_or_else(|_| fail("a part of the cases was not run"))).collect();
        firsts.into_iter().enumerate().find_map(|(i, first)| first.map(|at| i * part + at))
    })
}

// Whether the rig answers these cases as the peer does; the first that differs is shown.
fn rig_agrees(command: &str, cases: &[Case], told: &dyn Fn(usize)) -> bool {
    let differs = rig_differs(command);
    let Some(i) = differs(cases).iter().position(|d| *d) else {
        return true;
    };
    told(i);
    let answers = |case: &Case| (String::from_utf8_lossy(&codes(command, std::slice::from_ref(case))[0]).into_owned(), code_line(case));
    report("the rig", &cases[i], &differs, &answers);
    false
}

fn listing_agrees(command: &str, cases: &[Case], told: &dyn Fn(usize)) -> bool {
    let Some(i) = listing_first(command, cases) else {
        return true;
    };
    told(i);
    let text = |case: &Case| String::from_utf8_lossy(&texts(command, std::slice::from_ref(case))[0]).into_owned();
    let answers = |case: &Case| (text(case), listing(&case.input(), &mut Seen::new(false)));
    report("the listing", &cases[i], &listing_differs(command), &answers);
    false
}

// The peer's own way through these cases, for the branches that it takes.
fn note(cases: &[Case], listings: bool, seen: &mut Seen) {
    for case in cases {
        rig(&case.table, &case.log, seen);
        if listings {
            listing(&case.input(), seen);
        }
    }
}

pub fn compare(count: usize, seed: u64, rig_command: &str, listing_command: Option<&str>) -> bool {
    let mut random = Random(seed);
    let mut seen = Seen::new(true);
    let mut done = 0;
    while done < count {
        let cases: Vec<Case> = (0..std::cmp::min(1000, count - done)).map(|_| some_case(&mut random)).collect();
        note(&cases, listing_command.is_some(), &mut seen);
        let told = |i: usize| println!("seed {seed}, case {}", done + i);
        if !rig_agrees(rig_command, &cases, &told) || listing_command.is_some_and(|command| !listing_agrees(command, &cases, &told)) {
            return false;
        }
        done += cases.len();
    }
    seen.show();
    let missing = seen.missing(listing_command.is_some());
    missing.iter().for_each(|branch| println!("never reached: {branch}"));
    let also = if listing_command.is_some() { " and the listing" } else { ", with no listing program" };
    println!("seed {seed}: {done} cases, the rig{also} agree with the peer");
    missing.is_empty()
}
