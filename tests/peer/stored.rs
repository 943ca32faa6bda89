//! The peer's own answers against the stored cases; every file of the folder has to be of a case.
use crate::branches::Seen;
use crate::fail;
use crate::rules::listing::listing;
use crate::rules::rig::rig;
use std::collections::BTreeSet;
use std::fs;

// The files of a folder.
fn names(folder: &str) -> BTreeSet<String> {
    let all = fs::read_dir(folder).unwrap_or_else(|e| fail(&format!("{folder}: {e}")));
    all.map(|one| one.unwrap_or_else(|e| fail(&format!("{folder}: {e}"))).file_name().to_string_lossy().into_owned()).collect()
}

// Every file of a folder has been looked at, and there were more than the list of its cases.
fn all_looked_at(folder: &str, looked_at: &BTreeSet<String>) -> bool {
    let there = names(folder);
    there.difference(looked_at).for_each(|name| println!("{folder}/{name} is of no case"));
    there == *looked_at && there.len() > 1
}

// The lines of a folder's list of cases: a number, and what stands behind it.
fn cases_of(folder: &str, list: &str) -> Vec<(String, String)> {
    let text = String::from_utf8_lossy(&bytes_of(folder, list)).into_owned();
    let lines = text.lines().map(|line| line.split_once(' ').unwrap_or_else(|| fail(&format!("{folder}/{list}: {line}"))));
    lines.map(|(number, rest)| (number.to_string(), rest.to_string())).collect()
}

fn listing_vectors(folder: &str) -> (usize, bool) {
    let (mut good, mut looked_at) = (true, BTreeSet::from(["names.txt".to_string()]));
    let cases = cases_of(folder, "names.txt");
    for (case, name) in &cases {
        let (input, text) = (format!("{case}.in"), format!("{case}.out"));
        if listing(&bytes_of(folder, &input), &mut Seen::new(false)).as_bytes() != bytes_of(folder, &text) {
            good = false;
            println!("{folder}/{case}, {name}, differs");
        }
        looked_at.extend([input, text]);
    }
    (cases.len(), all_looked_at(folder, &looked_at) && good)
}

fn rig_vectors(folder: &str) -> (usize, bool) {
    let (mut good, mut looked_at) = (true, BTreeSet::from(["expected.txt".to_string()]));
    let cases = cases_of(folder, "expected.txt");
    for (case, code) in &cases {
        let (table, log) = (format!("{case}.table"), format!("{case}.log"));
        if rig(&bytes_of(folder, &table), &bytes_of(folder, &log), &mut Seen::new(false)).to_string() != *code {
            good = false;
            println!("{folder}/{case} differs");
        }
        looked_at.extend([table, log]);
    }
    (cases.len(), all_looked_at(folder, &looked_at) && good)
}

fn bytes_of(folder: &str, name: &str) -> Vec<u8> {
    fs::read(format!("{folder}/{name}")).unwrap_or_else(|e| fail(&format!("{folder}/{name}: {e}")))
}

pub fn vectors(folder: &str) -> bool {
    let (listings, listings_good) = listing_vectors(&format!("{folder}/listing"));
    let (codes, codes_good) = rig_vectors(&format!("{folder}/rig"));
    println!("{listings} stored listings and {codes} stored codes{}", if listings_good && codes_good { "" } else { ", not all as the peer has them" });
    listings_good && codes_good
}
