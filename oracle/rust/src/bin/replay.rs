//! Reads runs and their outcomes, which oracle.tests.reference_runs prints, and compares the published linearizer with
//! them.
//!
//! A line: depth, output words lent; number, place, second, records; how many output words, these; how many
//! trace words, these; the image. `replay list` prints each as the listing program would instead: a line there
//! is a depth and an image.
use oracle::published;
use oracle::{listing, with_rising_barriers, Outcome};
use std::collections::BTreeMap;
use std::io::{stdin, BufRead};

const MOST_NODES: usize = 1_000_000;

fn main() {
    let list = std::env::args().nth(1).as_deref() == Some("list");
    let mut counts = BTreeMap::new();
    let (mut differences, mut large) = (0, 0);
    for line in stdin().lock().lines() {
        let line = line.unwrap();
        let mut numbers = line.split_ascii_whitespace().map(|word| word.parse::<u64>().expect("a number"));
        let mut next = || numbers.next().expect("a longer line");
        let depth = next();
        if list {
            let words: Vec<u64> = numbers.collect();
            print!("{}", listing(&published::run(&words, depth, 8192, MOST_NODES).expect("a small image").outcome));
            continue;
        }
        let room = next() as usize;
        let mut expected =
            Outcome { number: next(), place: next(), second: next(), records: next(), ..Outcome::default() };
        let length = next();
        expected.output = (0..length).map(|_| next()).collect();
        let length = next();
        expected.trace = (0..length).map(|_| next()).collect();
        let words: Vec<u64> = numbers.collect();
        let Some(run) = published::run(&words, depth, room, MOST_NODES) else {
            large += 1;
            continue;
        };
        let mut found = run.outcome;
        found.output = with_rising_barriers(&found.output);
        let skipped = cfg!(feature = "plain") && (expected.number == 13 || run.untested);
        if !skipped && found != expected {
            differences += 1;
            println!("difference: depth {depth}, {room} words lent, image {words:?}\n published {found:?}\n expected {expected:?}");
        }
        *counts.entry((expected.number, run.domain, run.conditional)).or_insert(0) += 1;
    }
    if !list {
        for ((number, domain, conditional), count) in &counts {
            println!("{number}{domain}{}: {count}", if *conditional { ", with a conditional" } else { "" });
        }
        println!(
            "{} compared, {differences} differences, {large} left out as too large",
            counts.values().sum::<usize>()
        );
        std::process::exit((differences > 0) as i32);
    }
}
