//! Random images by seed: programs, programs whose calls repeat, single expressions, and damaged ones.
mod expressions;
mod repeats;
mod statements;

use crate::random::Random;
use expressions::Known;
use repeats::Repeats;

/// A gate; a body is the number of its first further statement and its length.
pub struct Gate {
    pub parameters: u64,
    pub arguments: u64,
    pub body: Option<(u64, u64)>,
}

/// The lists of an image.
#[derive(Default)]
pub struct Parts {
    pub quantum: Vec<u64>,
    pub classical: Vec<u64>,
    pub gates: Vec<Gate>,
    /// An if names its inner statement by its number among the further ones.
    pub main: Vec<[u64; 5]>,
    pub further: Vec<[u64; 5]>,
    pub arguments: Vec<[u64; 2]>,
    pub parameters: Vec<u64>,
    pub expressions: Vec<[u64; 3]>,
}

impl Parts {
    pub fn words(&self) -> Vec<u64> {
        let further = self.main.len() as u64;
        let counts = [
            self.quantum.len(),
            self.classical.len(),
            self.gates.len(),
            self.main.len(),
            self.further.len(),
            self.arguments.len(),
            self.parameters.len(),
            self.expressions.len(),
        ];
        let mut words = vec![0];
        words.extend(counts.map(|count| count as u64));
        words.extend(&self.quantum);
        words.extend(&self.classical);
        for gate in &self.gates {
            let (with_body, first, length) =
                gate.body.map_or((0, 0, 0), |(first, length)| (1, further + first, length));
            words.extend([gate.parameters, gate.arguments, with_body, first, length]);
        }
        for statement in &self.main {
            let [kind, first, second, third, fourth] = *statement;
            words.extend([kind, first, second, if kind == 7 { further + third } else { third }, fourth]);
        }
        words.extend(self.further.iter().flatten());
        words.extend(self.arguments.iter().flatten());
        words.extend(&self.parameters);
        words.extend(self.expressions.iter().flatten());
        words[0] = words.len() as u64;
        words
    }
}

struct Generator {
    random: Random,
    parts: Parts,
    known: Vec<Known>,
    /// Parameter count of the gate whose body is made; 0 in main.
    variables: u64,
    /// How often an expression may be anything, in percent.
    wild: u64,
}

fn generator(random: Random, wild: u64) -> Generator {
    Generator { random, parts: Parts::default(), known: Vec::new(), variables: 0, wild }
}

const MOST_WORDS: usize = 8192;

/// An accepted program; one time in six it may have conditionals.
pub fn program(seed: u64, item: u64) -> Vec<u64> {
    for attempt in 0.. {
        let mut random = Random::new(seed ^ attempt << 56, item);
        let conditionals = random.percent(16);
        let wild = random.of(&[0, 0, 2, 2, 5, 20]);
        let mut generator = generator(random, wild);
        generator.registers();
        if generator.random.percent(12) {
            let levels = generator.random.of(&[10, 20, 40, 127, 128]);
            generator.wild = 0;
            generator.tower(levels);
        } else {
            for _ in 0..generator.random.below(10) {
                generator.gate();
            }
        }
        generator.main(conditionals);
        let words = generator.parts.words();
        if words.len() <= MOST_WORDS {
            return words;
        }
    }
    unreachable!()
}

/// An accepted program whose calls repeat; one time in six it may have conditionals.
pub fn repeated_calls(seed: u64, item: u64) -> Vec<u64> {
    for attempt in 0.. {
        let mut random = Random::new(seed ^ 0xB ^ attempt << 56, item);
        let conditionals = random.percent(16);
        let wild = random.of(&[0, 0, 0, 2]);
        let words = Repeats::new(generator(random, wild)).words(conditionals);
        if words.len() <= MOST_WORDS {
            return words;
        }
    }
    unreachable!()
}

/// One U on one qubit, whose first angle is any expression.
pub fn expression(seed: u64, item: u64) -> Vec<u64> {
    let mut generator = generator(Random::new(seed ^ 0xE, item), 100);
    generator.parts.quantum = vec![1];
    generator.parts.arguments = vec![[0, 0]];
    let expression = generator.any_expression();
    let zero = generator.integer(0);
    generator.parts.main = vec![[1, expression, zero, zero, 0]];
    generator.parts.words()
}

/// A program of either sort with some words changed.
pub fn damaged(seed: u64, item: u64) -> Vec<u64> {
    let mut random = Random::new(seed ^ 0xD, item);
    let mut words = if random.percent(50) { program(seed, item) } else { repeated_calls(seed, item) };
    let changes = random.of(&[1, 1, 1, 2, 3]);
    for _ in 0..changes {
        if random.percent(3) {
            match random.below(3) {
                0 => words.truncate(random.below(words.len() as u64 + 1) as usize),
                1 => words.push(random.below(4)),
                _ => words.insert(random.below(words.len() as u64 + 1) as usize, random.below(4)),
            }
            if random.percent(50) && !words.is_empty() {
                words[0] = words.len() as u64;
            }
        }
        if words.is_empty() {
            break;
        }
        // Mostly past the contents, whose change is always 1.
        let first = if words.len() > 9 && random.percent(93) { 9 } else { 0 };
        let at = random.within(first, words.len() as u64 - 1) as usize;
        words[at] = match random.below(10) {
            0..=2 => words[at].wrapping_add(1),
            3 | 4 => words[at].wrapping_sub(1),
            5 => 0,
            6 => random.below(20),
            7 => random.below(5000),
            8 => words[random.below(words.len() as u64) as usize],
            _ => random.of(&[u64::MAX, 1 << 63, (1 << 63) - 1, 1 << 32, 16]),
        };
    }
    words
}

/// A depth: 0 to 5, as many as open everything, or in between.
pub fn depth(random: &mut Random) -> u64 {
    match random.below(12) {
        0..=5 => random.within(0, 5),
        6 | 7 => 129,
        8 => random.of(&[128, 130]),
        9 => random.within(6, 127),
        _ => u64::MAX,
    }
}

/// A depth for calls that repeat: mostly 2 to 6, which cut some of them.
pub fn cutting_depth(random: &mut Random) -> u64 {
    if random.percent(50) {
        random.within(2, 6)
    } else {
        depth(random)
    }
}
