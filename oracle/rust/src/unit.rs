//! The sequence unit's operations, from the static library of crate `unit_words_c`.
use crate::random::Random;
use crate::Outcome;

#[link(name = "unit_words", kind = "static")]
extern "C" {
    pub fn cowhirame_check(image: *const u64, words: usize, answer: *mut u64);
    pub fn cowhirame_next(words: *const u64, count: usize, at: usize, answer: *mut u64);
    pub fn cowhirame_run(
        image: *const u64,
        words: usize,
        depth: u64,
        output: *mut u64,
        output_words: usize,
        trace: *mut u64,
        trace_words: usize,
        answer: *mut u64,
    );
    pub fn cowhirame_tally(image: *const u64, words: usize, depth: u64, answer: *mut u64);
}

/// Number and place; 0 and 0 of an accepted image.
pub fn check(image: &[u64]) -> [u64; 2] {
    let mut answer = [u64::MAX; 2];
    unsafe { cowhirame_check(image.as_ptr(), image.len(), answer.as_mut_ptr()) };
    answer
}

/// Number and place, then the nine figures: records of kinds 1 to 7, body entries, word bound.
pub fn tally(image: &[u64], depth: u64) -> [u64; 11] {
    let mut answer = [u64::MAX; 11];
    unsafe { cowhirame_tally(image.as_ptr(), image.len(), depth, answer.as_mut_ptr()) };
    answer
}

/// Number and length of what stands at a position of some words.
pub fn next(words: &[u64], at: usize) -> [u64; 2] {
    let mut answer = [u64::MAX; 2];
    unsafe { cowhirame_next(words.as_ptr(), words.len(), at, answer.as_mut_ptr()) };
    answer
}

/// Words to lend, filled at random, with others before and after them that are not lent.
struct Lent {
    words: Vec<u64>,
    filled: Vec<u64>,
}

const AROUND: usize = 16;

impl Lent {
    fn new(random: &mut Random, length: usize) -> Lent {
        let words: Vec<u64> = (0..length + 2 * AROUND).map(|_| random.word()).collect();
        Lent { filled: words.clone(), words }
    }

    fn lent(&mut self) -> &mut [u64] {
        let end = self.words.len() - AROUND;
        &mut self.words[AROUND..end]
    }

    /// So many words from the first on, which the answer says were written, if all others are as they were.
    fn written(self, count: u64, what: &str) -> Result<Vec<u64>, String> {
        let most = self.words.len() - 2 * AROUND;
        if count > most as u64 {
            return Err(format!("{what}: {count} words written by the answer, {most} lent"));
        }
        let end = AROUND + count as usize;
        if self.words[..AROUND] != self.filled[..AROUND] || self.words[end..] != self.filled[end..] {
            return Err(format!("{what}: a word changed beside the {count} written"));
        }
        Ok(self.words[AROUND..end].to_vec())
    }
}

/// A run with so many output and trace words lent, or what is wrong with the words around those written.
pub fn run(random: &mut Random, image: &[u64], depth: u64, room: usize, trace_room: usize) -> Result<Outcome, String> {
    let mut output = Lent::new(random, room);
    let mut trace = Lent::new(random, trace_room);
    let lent_image = image.to_vec();
    let mut answer = [u64::MAX; 6];
    unsafe {
        let (out, tr) = (output.lent(), trace.lent());
        cowhirame_run(
            lent_image.as_ptr(),
            lent_image.len(),
            depth,
            out.as_mut_ptr(),
            out.len(),
            tr.as_mut_ptr(),
            tr.len(),
            answer.as_mut_ptr(),
        );
    }
    if lent_image != image {
        return Err("the image changed".into());
    }
    let [number, place, second, records, output_words, trace_words] = answer;
    let output = output.written(output_words, "output")?;
    let trace = trace.written(trace_words, "trace")?;
    Ok(Outcome { number, place, second, records, output, trace })
}
