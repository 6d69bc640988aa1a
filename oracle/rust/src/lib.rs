//! The published linearizer, given images and read back as document 01's words, beside the sequence unit's.
pub mod generate;
pub mod image;
pub mod published;
pub mod random;
#[cfg(feature = "unit")]
pub mod unit;

/// A run's answer and the words that it writes; a finished one has number 0.
#[derive(Debug, Clone, PartialEq, Eq, Default)]
pub struct Outcome {
    pub number: u64,
    pub place: u64,
    /// The second place, or the bits of a 10's f32.
    pub second: u64,
    pub records: u64,
    pub output: Vec<u64>,
    pub trace: Vec<u64>,
}

/// The words of a record that starts some words, by document 01's record reader; 0 if none does.
pub fn record_length(words: &[u64]) -> usize {
    let word = |at: usize| words.get(at).copied().unwrap_or(0) as u128;
    let length = match words.first() {
        Some(0) => 3 + 2 * (word(1) + word(2)),
        Some(1) => 14,
        Some(2 | 5) => 3,
        Some(3) => 4 + 4 * word(2) + word(3),
        Some(4) => 2 + word(1),
        Some(6) => 2,
        Some(7) => 4,
        Some(8) => 1,
        _ => 0,
    };
    if length > words.len() as u128 {
        0
    } else {
        length as usize
    }
}

/// The records of an output, or None if the words are not records.
pub fn records(output: &[u64]) -> Option<Vec<&[u64]>> {
    let (mut records, mut rest) = (Vec::new(), output);
    while !rest.is_empty() {
        let length = record_length(rest);
        if length == 0 {
            return None;
        }
        let (record, others) = rest.split_at(length);
        records.push(record);
        rest = others;
    }
    Some(records)
}

/// The same words with each barrier's qubits in rising order. The published linearizer writes them in the order of a hash
/// set, so that its barriers are held as sets. Ours must rise as they stand.
pub fn with_rising_barriers(output: &[u64]) -> Vec<u64> {
    let mut words = output.to_vec();
    let mut at = 0;
    while at < words.len() {
        let length = record_length(&words[at..]);
        if length == 0 {
            break;
        }
        if words[at] == 4 {
            words[at + 2..at + length].sort_unstable();
        }
        at += length;
    }
    words
}

/// An outcome as the listing program writes it.
pub fn listing(outcome: &Outcome) -> String {
    let mut text = String::new();
    let mut line = |words: Vec<String>| {
        text += &words.join(" ");
        text.push('\n');
    };
    for record in records(&outcome.output).expect("records") {
        let angles = match record[0] {
            1 => 1..13,
            3 => 4..4 + 4 * record[2] as usize,
            _ => 0..0,
        };
        let shown = |(at, word): (usize, &u64)| {
            if angles.contains(&at) {
                (*word as i64).to_string()
            } else {
                word.to_string()
            }
        };
        line(record.iter().enumerate().map(shown).collect());
    }
    if outcome.number == 0 {
        line(vec!["done".into(), outcome.records.to_string()]);
    } else {
        for pair in outcome.trace.chunks(2) {
            line(vec!["from".into(), pair[0].to_string(), pair[1].to_string()]);
        }
        let numbers = [outcome.number, outcome.place, outcome.second];
        line(["refused".to_string()].into_iter().chain(numbers.map(|n| n.to_string())).collect());
    }
    text
}
