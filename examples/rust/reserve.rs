//! reserve IMAGE [DEPTH]: runs an image with exactly as much memory as its tally asks for, and prints the listing.
//! IMAGE holds little-endian words of 8 bytes; `cowhirame pack` makes them from text.
//!
//! Build, at the top of the repository:
//!     tools/build unit_words
//!     rustc -O -L target/staticlib -o target/reserve-rust examples/rust/reserve.rs
//! Run:
//!     ./cowhirame pack examples/bell.image > target/bell.words
//!     target/reserve-rust target/bell.words
use std::process::exit;

/// The operations, as include/cowhirame.h explains them. A slice of no words has a pointer that is not null, so
/// that any Rust slice can be lent; the borrow checker sees to it that none of them overlap.
mod unit {
    #[link(name = "unit_words", kind = "static")]
    extern "C" {
        fn cowhirame_tally(image: *const u64, words: usize, depth: u64, answer: *mut u64);
        fn cowhirame_run(
            image: *const u64,
            words: usize,
            depth: u64,
            output: *mut u64,
            output_words: usize,
            trace: *mut u64,
            trace_words: usize,
            answer: *mut u64,
        );
        fn cowhirame_next(words: *const u64, count: usize, at: usize, answer: *mut u64);
    }

    /// Number and place, then nine figures; the last of them is the word bound.
    pub fn tally(image: &[u64], depth: u64) -> [u64; 11] {
        let mut answer = [0; 11];
        unsafe { cowhirame_tally(image.as_ptr(), image.len(), depth, answer.as_mut_ptr()) };
        answer
    }

    /// Number, place, second place; records, output words and trace words written.
    pub fn run(image: &[u64], depth: u64, output: &mut [u64], trace: &mut [u64]) -> [u64; 6] {
        let mut answer = [0; 6];
        unsafe {
            cowhirame_run(
                image.as_ptr(),
                image.len(),
                depth,
                output.as_mut_ptr(),
                output.len(),
                trace.as_mut_ptr(),
                trace.len(),
                answer.as_mut_ptr(),
            )
        };
        answer
    }

    /// The record at the front of some words; None at the end, or where they begin no record.
    pub fn next(words: &[u64]) -> Option<&[u64]> {
        let mut answer = [0; 2];
        unsafe { cowhirame_next(words.as_ptr(), words.len(), 0, answer.as_mut_ptr()) };
        match answer {
            [0, length] if length > 0 => Some(&words[..length as usize]),
            _ => None,
        }
    }
}

/// Which words of a record belong to angles, and so are signed.
fn angles_of(record: &[u64]) -> std::ops::Range<usize> {
    match record[0] {
        1 => 1..13,                          // U
        3 => 4..4 + 4 * record[2] as usize, // a gate that is not opened
        _ => 0..0,
    }
}

fn print_records(mut output: &[u64]) {
    while let Some(record) = unit::next(output) {
        let angles = angles_of(record);
        let signed = |(at, word): (usize, &u64)| match angles.contains(&at) {
            true => (*word as i64).to_string(),
            false => word.to_string(),
        };
        println!("{}", record.iter().enumerate().map(signed).collect::<Vec<_>>().join(" "));
        output = &output[record.len()..];
    }
}

fn words_of(bytes: &[u8]) -> Option<Vec<u64>> {
    let word = |eight: &[u8]| eight.iter().rev().fold(0, |word, byte| word << 8 | u64::from(*byte));
    match bytes.len() % 8 {
        0 => Some(bytes.chunks(8).map(word).collect()),
        _ => None,
    }
}

fn unusable(what: &str) -> ! {
    eprintln!("reserve: {what}");
    exit(2)
}

fn main() {
    let arguments: Vec<String> = std::env::args().collect();
    if arguments.len() != 2 && arguments.len() != 3 {
        unusable("usage: reserve IMAGE [DEPTH]");
    }
    let bytes = std::fs::read(&arguments[1]).unwrap_or_else(|e| unusable(&format!("{}: {e}", arguments[1])));
    let image = words_of(&bytes).unwrap_or_else(|| unusable("the image ends within a word"));
    let depth = match arguments.get(2) {
        Some(text) => text.parse().unwrap_or_else(|e| unusable(&format!("{text}: {e}"))),
        None => u64::MAX, // every gate body is opened
    };

    let [number, place, .., bound] = unit::tally(&image, depth);
    if number != 0 {
        println!("refused {number} {place} 0");
        exit(1);
    }
    let mut output = vec![0; bound as usize];
    let mut trace = [0; 256];
    let [number, place, second, records, output_words, trace_words] = unit::run(&image, depth, &mut output, &mut trace);
    print_records(&output[..output_words as usize]);
    if number == 0 {
        println!("done {records}");
        return;
    }
    for frame in trace[..trace_words as usize].chunks(2) {
        println!("from {} {}", frame[0], frame[1]);
    }
    println!("refused {number} {place} {second}");
    exit(1)
}
