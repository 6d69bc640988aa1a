//! compare SEED COUNT [FIRST]: the sequence unit beside the published linearizer, on random images.
//!
//! Of ten items six are programs, three of these with calls that repeat; three are single expressions and one is damaged.
//! Against the published linearizer a barrier is held as a set: its qubits are put in rising order, in which ours must stand.
//! Counts by outcome are printed, and every difference with its image; the exit status is 1 if there is any.
use oracle::published::{self, Domain, Run};
use oracle::random::Random;
use oracle::{generate, record_length, records, unit, with_rising_barriers, Outcome};
use std::collections::BTreeMap;
use std::time::Instant;

/// The longest output lent, the most body entries tried, and the most nodes of an image's expressions as trees.
const MOST_ROOM: u64 = 20_000;
const MOST_ENTRIES: u64 = 20_000;
const MOST_NODES: usize = 300_000;
/// The shortest trace that a run takes.
const TRACE_ROOM: usize = 256;
const DIFFERENCES_SHOWN: u64 = 20;

#[derive(Default)]
struct Counts {
    ends: BTreeMap<(u64, Domain, bool), u64>,
    depths: BTreeMap<&'static str, u64>,
    damaged: BTreeMap<u64, u64>,
    kinds: BTreeMap<u64, u64>,
    expressions: u64,
    programs: u64,
    repeats: u64,
    lowered: u64,
    large: u64,
    runs: u64,
    records: u64,
    words: u64,
    traced: u64,
    most_frames: usize,
    only_begun: u64,
    differences: u64,
}

struct Comparison {
    counts: Counts,
    random: Random,
    item: u64,
}

impl Comparison {
    fn differ(&mut self, image: &[u64], depth: u64, room: usize, what: &str) {
        self.counts.differences += 1;
        if self.counts.differences <= DIFFERENCES_SHOWN {
            println!("difference: item {}, depth {depth}, {room} words lent: {what}", self.item);
            println!("  image {}", image.iter().map(u64::to_string).collect::<Vec<_>>().join(" "));
        }
    }

    /// An accepted image at a depth, with several lengths lent.
    fn accepted(&mut self, image: &[u64], mut depth: u64) {
        let mut tally = unit::tally(image, depth);
        if tally[0] != 0 || tally[9] > MOST_ENTRIES {
            self.counts.lowered += 1;
            depth = 1;
            tally = unit::tally(image, depth);
        }
        if tally[..2] != [0, 0] {
            return self.differ(image, depth, 0, &format!("tally {tally:?}"));
        }
        let bound = tally[10];
        let ample = bound.min(MOST_ROOM) as usize;
        let Some(ours) = self.compared(image, depth, ample, true) else { return };
        self.tallied(image, depth, ample, &tally[2..], &ours);
        self.read(image, depth, ample, &ours.output);
        *self.counts.depths.entry(shown_depth(depth)).or_default() += 1;
        let written = ours.output.len();
        let any = self.random.below(written as u64 + 1) as usize;
        for room in [written, written + 1, written.saturating_sub(1), 0, any] {
            self.compared(image, depth, room, false);
        }
        for trace_room in [0, TRACE_ROOM - 1] {
            let refused = Outcome { number: 15, ..Outcome::default() };
            let ours = unit::run(&mut self.random, image, depth, ample, trace_room);
            if ours != Ok(refused) {
                self.differ(image, depth, ample, &format!("{trace_room} trace words lent: {ours:?}"));
            }
        }
    }

    /// Both runs with so many words lent; the unit's outcome, unless one of them cannot be had.
    fn compared(&mut self, image: &[u64], depth: u64, room: usize, first: bool) -> Option<Outcome> {
        let Some(run) = published::run(image, depth, room, MOST_NODES) else {
            self.counts.large += 1;
            return None;
        };
        let trace_room = TRACE_ROOM + self.random.below(3) as usize;
        let ours = match unit::run(&mut self.random, image, depth, room, trace_room) {
            Ok(ours) => ours,
            Err(what) => {
                self.differ(image, depth, room, &what);
                return None;
            }
        };
        let Run { mut outcome, domain, conditional, untested } = run;
        outcome.output = with_rising_barriers(&outcome.output);
        let counts = &mut self.counts;
        counts.runs += 1;
        counts.records += ours.records;
        counts.words += ours.output.len() as u64;
        counts.traced += (ours.trace.len() > 0) as u64;
        counts.most_frames = counts.most_frames.max(ours.trace.len() / 2);
        // Over the real standard library the source goes on where the unit refuses.
        let begun = cfg!(feature = "plain") && (ours.number == 13 || untested);
        counts.only_begun += begun as u64;
        let domain = if begun && ours.number == 13 { Domain::FloatFunction } else { domain };
        if first {
            *counts.ends.entry((ours.number, domain, conditional)).or_default() += 1;
        }
        let same = if begun { outcome.output.starts_with(&ours.output) } else { outcome == ours };
        if !same {
            self.differ(image, depth, room, &format!("\n  unit {ours:?}\n  published {outcome:?}"));
        }
        Some(ours)
    }

    /// The tally's figures beside the records of a run that was lent the word bound, or less.
    fn tallied(&mut self, image: &[u64], depth: u64, room: usize, figures: &[u64], ours: &Outcome) {
        let Some(found) = records(&ours.output) else {
            return self.differ(image, depth, room, "the output is not records");
        };
        for record in &found {
            *self.counts.kinds.entry(record[0]).or_default() += 1;
        }
        let of_kind = |kind| found.iter().filter(|record| record[0] == kind).count() as u64;
        let finished = ours.number == 0;
        let kinds_good = (1..=7).all(|kind| {
            let (found, figure) = (of_kind(kind), figures[kind as usize - 1]);
            found == figure || !finished && found < figure
        });
        let ample = room as u64 >= figures[8];
        let good = kinds_good
            && found.len() as u64 == ours.records
            && ours.output.len() as u64 <= figures[8]
            && !(ample && ours.number == 14);
        if !good {
            self.differ(image, depth, room, &format!("figures {figures:?}, outcome {ours:?}"));
        }
    }

    /// The record reader at each position of a run's output, the end and one past it.
    fn read(&mut self, image: &[u64], depth: u64, room: usize, output: &[u64]) {
        for at in 0..output.len() + 2 {
            let length = output.get(at..).map_or(0, record_length) as u64;
            let expected = if length > 0 || at == output.len() { [0, length] } else { [17, 0] };
            if unit::next(output, at) != expected {
                return self.differ(image, depth, room, &format!("the record reader at {at}: {expected:?} is right"));
            }
        }
    }

    /// Any words: the three operations agree on what check says.
    fn damaged(&mut self, image: &[u64], depth: u64) {
        let answer = unit::check(image);
        *self.counts.damaged.entry(answer[0]).or_default() += 1;
        if answer[0] == 0 {
            return self.accepted(image, depth);
        }
        let refused = Outcome { number: answer[0], place: answer[1], ..Outcome::default() };
        let ours = unit::run(&mut self.random, image, depth, 100, TRACE_ROOM);
        let tally = unit::tally(image, depth);
        if !(1..=8).contains(&answer[0]) || ours != Ok(refused) || tally[..2] != answer {
            self.differ(image, depth, 100, &format!("check {answer:?}, tally {tally:?}, run {ours:?}"));
        }
    }

    fn made(&mut self, image: &[u64], depth: u64) {
        let answer = unit::check(image);
        if answer == [0, 0] {
            self.accepted(image, depth);
        } else {
            self.differ(image, 0, 0, &format!("an image made to be accepted: {answer:?}"));
        }
    }
}

fn main() {
    let mut numbers = std::env::args().skip(1).map(|word| word.parse::<u64>().expect("a number"));
    let (Some(seed), Some(count)) = (numbers.next(), numbers.next()) else {
        eprintln!("compare SEED COUNT [FIRST]");
        std::process::exit(2)
    };
    let first = numbers.next().unwrap_or(0);
    let start = Instant::now();
    let mut comparison = Comparison { counts: Counts::default(), random: Random::new(seed, 0), item: 0 };
    for item in first..first + count {
        comparison.item = item;
        comparison.random = Random::new(seed ^ 0xC, item);
        let depth = generate::depth(&mut comparison.random);
        match item % 10 {
            0..=2 => {
                comparison.counts.programs += 1;
                comparison.made(&generate::program(seed, item), depth)
            }
            3..=5 => {
                comparison.counts.repeats += 1;
                let depth = generate::cutting_depth(&mut comparison.random);
                comparison.made(&generate::repeated_calls(seed, item), depth)
            }
            6..=8 => {
                comparison.counts.expressions += 1;
                comparison.made(&generate::expression(seed, item), depth)
            }
            _ => comparison.damaged(&generate::damaged(seed, item), depth),
        }
    }
    report(&comparison.counts, count, start.elapsed().as_secs_f64());
    std::process::exit((comparison.counts.differences > 0) as i32);
}

fn listed<K: std::fmt::Display>(counts: &BTreeMap<K, u64>) -> String {
    counts.iter().map(|(key, count)| format!("{key}: {count}")).collect::<Vec<_>>().join("  ")
}

fn shown_depth(depth: u64) -> &'static str {
    match depth {
        0..=5 => ["0", "1", "2", "3", "4", "5"][depth as usize],
        6..=127 => "6 to 127",
        128..=130 => "128 to 130",
        _ => "2^64-1",
    }
}

fn report(counts: &Counts, count: u64, seconds: f64) {
    println!(
        "{} programs, {} with calls that repeat, {} single expressions",
        counts.programs + counts.repeats,
        counts.repeats,
        counts.expressions
    );
    println!("damaged images by check's answer  {}", listed(&counts.damaged));
    println!("by depth  {}", listed(&counts.depths));
    println!("at an ample length:");
    for ((number, domain, conditional), count) in &counts.ends {
        let number = if *number == 0 { "finished".into() } else { format!("refused {number}") };
        println!("  {number}{domain}{}: {count}", if *conditional { ", with a conditional" } else { "" });
    }
    println!("records by kind  {}; a barrier's qubits are held as a set, and the unit's must rise", listed(&counts.kinds));
    let inside = counts.ends.iter().filter(|((_, domain, conditional), _)| *domain == Domain::Inside && !conditional);
    println!(
        "{} of {} inside document 01's domain",
        inside.map(|end| end.1).sum::<u64>(),
        counts.ends.values().sum::<u64>()
    );
    println!("{} runs compared, with {} records, {} words", counts.runs, counts.records, counts.words);
    println!("{} with a trace, of at most {} frames", counts.traced, counts.most_frames);
    println!(
        "{} at depth 1 for their length; {} left out as too large for the published linearizer",
        counts.lowered, counts.large
    );
    if cfg!(feature = "plain") {
        println!("{} runs compared only to where the unit refused and the source went on", counts.only_begun);
    }
    println!(
        "{} differences; {seconds:.1} s, {:.3} s for 1,000 items",
        counts.differences,
        1000.0 * seconds / count.max(1) as f64
    );
}
