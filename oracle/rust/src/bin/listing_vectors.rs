//! listing_vectors SEED COUNT: prints COUNT listings of the published linearizer, a line each.
//!
//! A line: the number of the image's words, the depth, the length and the checksum of the listing, the image's words.
//! Of 48 items 39 are short programs, eight are single expressions and one is a program of up to 1,000 words. Left out:
//! what is outside of document 01's domain, an image that was there before, and what there is enough of. How the runs
//! ended goes to standard error.
use oracle::published::{self, Domain, Run};
use oracle::random::Random;
use oracle::{generate, image, listing, with_rising_barriers, Outcome};
use std::collections::{BTreeMap, HashSet};

/// The output words that the listing program lends, and the most nodes of an image's expressions as trees.
const ROOM: usize = 8192;
const MOST_NODES: usize = 300_000;

fn checksum(text: &str) -> u64 {
    text.bytes().fold(0, |sum, byte| (sum * 65599 + byte as u64) % 4294967291)
}

/// The image of an item, unless it is longer than the item may be; few have no statements.
fn made(seed: u64, item: u64) -> Option<Vec<u64>> {
    let (image, most) = match item % 48 {
        47 => (generate::program(seed, item), 1000),
        n if n % 6 == 0 => (generate::expression(seed, item), 80),
        _ => (generate::program(seed, item), 180),
    };
    Some(image).filter(|image| image.len() <= most && (image[4] > 0 || item % 16 == 1))
}

/// Whether an image has an integer literal of 2^63 or more, evaluated or not.
fn has_wrapping_literal(words: &[u64]) -> bool {
    let image = image::Image::new(words);
    (0..image.count(image::EXPRESSIONS) as u64).any(|number| {
        let entry = image.entry(image::EXPRESSIONS, number);
        entry[0] == 2 && entry[1] >= 1 << 63
    })
}

/// The most runs that end with a number, of those with a trace and of the others: half of all finish.
fn most(number: u64, count: u64) -> u64 {
    if number == 0 {
        count / 2
    } else {
        count / 14
    }
}

/// The published linearizer's answer, if it is inside of document 01's domain.
fn answer(image: &[u64], depth: u64) -> Option<Outcome> {
    if has_wrapping_literal(image) {
        return None;
    }
    let Run { mut outcome, domain, conditional, untested } = published::run(image, depth, ROOM, MOST_NODES)?;
    outcome.output = with_rising_barriers(&outcome.output);
    Some(outcome).filter(|_| domain == Domain::Inside && !conditional && !untested)
}

fn line(image: &[u64], depth: u64, text: &str) -> String {
    let leading = [image.len() as u64, depth, text.len() as u64, checksum(text)];
    leading.iter().chain(image).map(u64::to_string).collect::<Vec<_>>().join(" ")
}

fn main() {
    let mut numbers = std::env::args().skip(1).map(|word| word.parse::<u64>().expect("a number"));
    let (Some(seed), Some(count)) = (numbers.next(), numbers.next()) else {
        eprintln!("listing_vectors SEED COUNT");
        std::process::exit(2)
    };
    let (mut seen, mut ends, mut frames) =
        (HashSet::new(), BTreeMap::<(u64, bool), u64>::new(), BTreeMap::<usize, u64>::new());
    for item in 0.. {
        if seen.len() as u64 == count {
            break;
        }
        let Some(image) = made(seed, item) else { continue };
        let depth = generate::depth(&mut Random::new(seed ^ 0xC, item));
        let Some(outcome) = answer(&image, depth) else { continue };
        let ended = ends.entry((outcome.number, !outcome.trace.is_empty())).or_default();
        if *ended == most(outcome.number, count) || seen.contains(&image) {
            continue;
        }
        *ended += 1;
        *frames.entry(outcome.trace.len() / 2).or_default() += 1;
        println!("{}", line(&image, depth, &listing(&outcome)));
        seen.insert(image);
    }
    eprintln!("by outcome and whether there is a trace {ends:?}, by frames of the trace {frames:?}");
}
