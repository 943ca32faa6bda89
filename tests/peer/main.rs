//! A second engine, written from the rules alone, and a generator of tables and logs: it compares the rig's codes and the listing's text
//! with its own. It shares nothing with the library.
//!
//!   peer vectors FOLDER                     its own answers against stored ones
//!   peer listing FILE                       its own listing of a file
//!   peer cases COUNT SEED RIG [LISTING]     the programs against its own answers
//!
//! RIG and LISTING are commands; the words of each are split at spaces. A difference is shown with the seed and the smallest case found that has it.
use std::env;
use std::fs;
use std::process::exit;

mod branches;
mod cases;
mod compare;
mod differences;
mod programs;
mod rules;
mod stored;

use branches::Seen;
use compare::compare;
use rules::listing::listing;
use stored::vectors;

pub fn fail(what: &str) -> ! {
    println!("peer: {what}");
    exit(2);
}

fn whole(word: &str) -> u64 {
    word.parse().unwrap_or_else(|_| fail(&format!("{word} is no number")))
}

fn main() {
    let words: Vec<String> = env::args().skip(1).collect();
    let words: Vec<&str> = words.iter().map(|word| word.as_str()).collect();
    let good = match words[..] {
        ["vectors", folder] => vectors(folder),
        ["listing", file] => {
            let input = fs::read(file).unwrap_or_else(|e| fail(&format!("{file}: {e}")));
            print!("{}", listing(&input, &mut Seen::new(false)));
            true
        }
        ["cases", count, seed, rig] => compare(whole(count) as usize, whole(seed), rig, None),
        ["cases", count, seed, rig, listing] => compare(whole(count) as usize, whole(seed), rig, Some(listing)),
        _ => fail("vectors FOLDER, listing FILE, or cases COUNT SEED RIG [LISTING]"),
    };
    exit(if good { 0 } else { 1 });
}
