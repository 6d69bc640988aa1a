//! measure [ROUNDS]: the times of the sequence unit beside the published linearizer's, as ratios; check, tally, the
//! listing program and the stack.
//!
//! In each round both run the same images in turn, the unit's check included; the published linearizer gets its
//! program ready made, and a writer that does nothing but put the words into memory that is there. A ratio is of one
//! round; the middle one of all rounds is printed with the least and the largest. Copying the words of the output
//! once more is measured beside them: no writer can be faster.
use num::Rational64;
use openqasm::ast::{Program, Symbol};
use openqasm::translate::{GateWriter, Linearize, ProgramVisitor, Value};
use oracle::generate::{self, Gate, Parts};
use oracle::image::{self, Image};
use oracle::unit::{cowhirame_check, cowhirame_run, cowhirame_tally};
use std::convert::Infallible;
use std::env;
use std::hint::black_box;
use std::io::Write;
use std::process::{Command, Stdio};
use std::thread;
use std::time::Instant;

const ALL: u64 = u64::MAX;
/// How long one side of a round runs, in seconds.
const ROUND: f64 = 0.05;
const MOST_NODES: usize = 300_000;

// ---- programs

/// One U or CX a statement, on whole registers.
fn broadcasts(quantum: &[u64], statement: [u64; 5], count: usize) -> Vec<u64> {
    let arguments = (0..quantum.len() as u64).map(|register| [register, 0]).collect();
    let expressions = vec![[0, 0, 0], [2, 2, 0], [7, 0, 1], [2, 0, 0]];
    Parts { quantum: quantum.to_vec(), main: vec![statement; count], arguments, expressions, ..Parts::default() }
        .words()
}

/// Gates that call the one below twice, over a U; each hands its parameters on.
fn doubling(levels: u64, parameters: u64) -> Vec<u64> {
    let mut parts = Parts { quantum: vec![1], arguments: vec![[0, 0]], ..Parts::default() };
    // 0, the parameters, and what main gives for them.
    parts.expressions = vec![[2, 0, 0]];
    parts.expressions.extend((0..parameters).map(|variable| [3, variable, 0]));
    parts.expressions.extend((0..parameters).map(|number| [2, number + 1, 0]));
    parts.parameters = (1..=2 * parameters).collect();
    let angle = |number: u64| if number < parameters { number + 1 } else { 0 };
    parts.further.push([1, angle(0), angle(1), angle(2), 0]);
    parts.gates.push(Gate { parameters, arguments: 1, body: Some((0, 1)) });
    for level in 1..levels {
        let first = parts.further.len() as u64;
        parts.further.extend([[3, level - 1, 0, 0, 0]; 2]);
        parts.gates.push(Gate { parameters, arguments: 1, body: Some((first, 2)) });
    }
    parts.main = vec![[3, levels - 1, parameters, 0, 0]; 2];
    parts.words()
}

/// Expressions of ten nodes, (pi*i/j - 0.5) + (-k) with many i, three a U.
fn expressions(count: u64, kinds: u64) -> Vec<u64> {
    let mut parts = Parts { quantum: vec![1], arguments: vec![[0, 0]], ..Parts::default() };
    for kind in 0..kinds {
        let at = parts.expressions.len() as u64;
        parts.expressions.extend([
            [0, 0, 0],
            [2, kind + 1, 0],
            [6, at, at + 1],
            [2, kind % 7 + 2, 0],
            [7, at + 2, at + 3],
            [1, 0.5f32.to_bits() as u64, 0],
            [5, at + 4, at + 5],
            [2, kind % 5, 0],
            [9, at + 7, 0],
            [4, at + 6, at + 8],
        ]);
    }
    let root = |number: u64| number % kinds * 10 + 9;
    parts.main = (0..count).map(|u| [1, root(3 * u), root(3 * u + 1), root(3 * u + 2), 0]).collect();
    parts.words()
}

/// A program on one register, made gate by gate and call by call.
struct Calls {
    parts: Parts,
    pi: u64,
    two: u64,
    zero: u64,
    variable: u64,
}

impl Calls {
    fn new(qubits: u64) -> Calls {
        let expressions = vec![[0, 0, 0], [2, 2, 0], [2, 0, 0], [3, 0, 0]];
        let parts = Parts { quantum: vec![qubits], expressions, ..Parts::default() };
        Calls { parts, pi: 0, two: 1, zero: 2, variable: 3 }
    }

    fn expression(&mut self, kind: u64, first: u64, second: u64) -> u64 {
        self.parts.expressions.push([kind, first, second]);
        self.parts.expressions.len() as u64 - 1
    }

    fn integer(&mut self, number: u64) -> u64 {
        self.expression(2, number, 0)
    }

    fn quotient(&mut self, dividend: u64, divisor: u64) -> u64 {
        self.expression(7, dividend, divisor)
    }

    /// A call with these expressions and arguments.
    fn statement(&mut self, gate: u64, parameters: &[u64], arguments: impl Iterator<Item = [u64; 2]>) -> [u64; 5] {
        let statement = [3, gate, self.parts.parameters.len() as u64, self.parts.arguments.len() as u64, 0];
        self.parts.parameters.extend(parameters);
        self.parts.arguments.extend(arguments);
        statement
    }

    /// A call in a body.
    fn inner(&mut self, gate: u64, parameters: &[u64], formals: &[u64]) -> [u64; 5] {
        self.statement(gate, parameters, formals.iter().map(|formal| [*formal, 0]))
    }

    /// A call in main.
    fn call(&mut self, gate: u64, parameters: &[u64], qubits: &[u64]) {
        let statement = self.statement(gate, parameters, qubits.iter().map(|qubit| [0, qubit + 1]));
        self.parts.main.push(statement);
    }

    fn u(&mut self, angles: [u64; 3], formal: u64) -> [u64; 5] {
        self.parts.arguments.push([formal, 0]);
        [1, angles[0], angles[1], angles[2], self.parts.arguments.len() as u64 - 1]
    }

    fn cx(&mut self, control: u64, target: u64) -> [u64; 5] {
        self.parts.arguments.extend([[control, 0], [target, 0]]);
        let end = self.parts.arguments.len() as u64;
        [2, end - 2, end - 1, 0, 0]
    }

    fn gate(&mut self, parameters: u64, arguments: u64, body: &[[u64; 5]]) -> u64 {
        let first = self.parts.further.len() as u64;
        self.parts.further.extend(body);
        self.parts.gates.push(Gate { parameters, arguments, body: Some((first, body.len() as u64)) });
        self.parts.gates.len() as u64 - 1
    }
}

/// The usual gates over U and CX.
struct Usual {
    calls: Calls,
    u1: u64,
    cx: u64,
    h: u64,
    t: u64,
    tdg: u64,
}

impl Usual {
    fn new(qubits: u64) -> Usual {
        let mut calls = Calls::new(qubits);
        let (pi, two, zero, x) = (calls.pi, calls.two, calls.zero, calls.variable);
        let y = calls.expression(3, 1, 0);
        let half = calls.quotient(pi, two);
        let four = calls.integer(4);
        let quarter = calls.quotient(pi, four);
        let negative = calls.expression(9, quarter, 0);
        let body = [calls.u([half, x, y], 0)];
        let u2 = calls.gate(2, 1, &body);
        let body = [calls.u([zero, zero, x], 0)];
        let u1 = calls.gate(1, 1, &body);
        let body = [calls.cx(0, 1)];
        let cx = calls.gate(0, 2, &body);
        let body = [calls.inner(u2, &[zero, pi], &[0])];
        let h = calls.gate(0, 1, &body);
        let body = [calls.inner(u1, &[quarter], &[0])];
        let t = calls.gate(0, 1, &body);
        let body = [calls.inner(u1, &[negative], &[0])];
        let tdg = calls.gate(0, 1, &body);
        Usual { calls, u1, cx, h, t, tdg }
    }

    /// A gate without parameters, from its calls and their formals.
    fn gate(&mut self, arguments: u64, body: &[(u64, &[u64])]) -> u64 {
        let body: Vec<_> = body.iter().map(|(gate, formals)| self.calls.inner(*gate, &[], formals)).collect();
        self.calls.gate(0, arguments, &body)
    }
}

/// A ripple-carry adder by majority gates, over the usual gates: two numbers of so many bits, in turn bit by bit.
fn adder(bits: u64) -> Vec<u64> {
    let mut usual = Usual::new(2 * bits + 2);
    let Usual { cx, h, t, tdg, .. } = usual;
    let toffoli: [(u64, &[u64]); 15] = [
        (h, &[2]),
        (cx, &[1, 2]),
        (tdg, &[2]),
        (cx, &[0, 2]),
        (t, &[2]),
        (cx, &[1, 2]),
        (tdg, &[2]),
        (cx, &[0, 2]),
        (t, &[1]),
        (t, &[2]),
        (h, &[2]),
        (cx, &[0, 1]),
        (t, &[0]),
        (tdg, &[1]),
        (cx, &[0, 1]),
    ];
    let ccx = usual.gate(3, &toffoli);
    let majority = usual.gate(3, &[(cx, &[2, 1]), (cx, &[2, 0]), (ccx, &[0, 1, 2])]);
    let unmajority = usual.gate(3, &[(ccx, &[0, 1, 2]), (cx, &[2, 0]), (cx, &[0, 1])]);
    let mut calls = usual.calls;
    for bit in 0..bits {
        calls.call(majority, &[], &[2 * bit, 2 * bit + 1, 2 * bit + 2]);
    }
    calls.call(cx, &[], &[2 * bits, 2 * bits + 1]);
    for bit in (0..bits).rev() {
        calls.call(unmajority, &[], &[2 * bit, 2 * bit + 1, 2 * bit + 2]);
    }
    calls.parts.words()
}

/// A Fourier transform over the usual gates: cu1 of pi/2, pi/4 and so on for each pair of qubits.
fn fourier(qubits: u64) -> Vec<u64> {
    let Usual { mut calls, u1, cx, h, .. } = Usual::new(qubits);
    let half = calls.quotient(calls.variable, calls.two);
    let negative = calls.expression(9, half, 0);
    let body = [
        calls.inner(u1, &[half], &[0]),
        calls.inner(cx, &[], &[0, 1]),
        calls.inner(u1, &[negative], &[1]),
        calls.inner(cx, &[], &[0, 1]),
        calls.inner(u1, &[half], &[1]),
    ];
    let cu1 = calls.gate(1, 2, &body);
    let parts: Vec<u64> = (1..qubits).map(|power| calls.integer(1 << power)).collect();
    let angles: Vec<u64> = parts.into_iter().map(|part| calls.quotient(calls.pi, part)).collect();
    for qubit in 0..qubits {
        for other in 0..qubit {
            calls.call(cu1, &[angles[(qubit - other) as usize - 1]], &[qubit, other]);
        }
        calls.call(h, &[], &[qubit]);
    }
    calls.parts.words()
}

/// Calls of a gate of eight U and two CX on neighbours, with the same angle or an angle each.
fn ten_records(count: u64, same: bool) -> Vec<u64> {
    let mut calls = Calls::new(64);
    let half = calls.quotient(calls.pi, calls.two);
    let angles = [half, calls.zero, calls.variable];
    let body: Vec<_> = (0..10).map(|at| if at % 5 == 4 { calls.cx(0, 1) } else { calls.u(angles, at % 2) }).collect();
    let gate = calls.gate(1, 2, &body);
    for number in 0..count {
        let angle = if same { half } else { calls.integer(number + 1) };
        calls.call(gate, &[angle], &[number % 60, number % 60 + 1]);
    }
    calls.parts.words()
}

/// Layers of u1 on each qubit, with an angle each, and cx of neighbours.
fn layers(qubits: u64, count: u64) -> Vec<u64> {
    let Usual { mut calls, u1, cx, .. } = Usual::new(qubits);
    for layer in 0..count {
        for qubit in 0..qubits {
            let angle = calls.integer(layer * qubits + qubit + 1);
            calls.call(u1, &[angle], &[qubit]);
        }
        for qubit in 1..qubits {
            calls.call(cx, &[], &[qubit - 1, qubit]);
        }
    }
    calls.parts.words()
}

/// The most gates, each calling the one below twice; the lowest has no statements, and nothing is written but the head.
fn silent_doubling() -> Vec<u64> {
    let mut parts = Parts { quantum: vec![1], arguments: vec![[0, 0]], ..Parts::default() };
    parts.gates.push(Gate { parameters: 0, arguments: 1, body: Some((0, 0)) });
    for level in 1..128 {
        let first = parts.further.len() as u64;
        parts.further.extend([[3, level - 1, 0, 0, 0]; 2]);
        parts.gates.push(Gate { parameters: 0, arguments: 1, body: Some((first, 2)) });
    }
    parts.main = vec![[3, 127, 0, 0, 0]];
    parts.words()
}

/// Small programs that are done, of 8 to 12 records each.
fn small(count: usize) -> Vec<Vec<u64>> {
    let records = |image: &Vec<u64>| {
        let mut unit = Unit::new(image);
        (unit.run(image, ALL), unit.answer[0])
    };
    (0..)
        .map(|item| generate::program(7, item))
        .filter(|image| !Image::new(image).has_conditional() && tally(image, ALL)[9] < 1000)
        .filter(|image| matches!(records(image), (8..=12, 0)))
        .take(count)
        .collect()
}

/// The most gates, each calling the one below so many times, over a U whose angles have 32 levels.
fn tower(calls: u64) -> Vec<u64> {
    let mut parts =
        Parts { quantum: vec![1], arguments: vec![[0, 0]], expressions: vec![[0, 0, 0]], ..Parts::default() };
    parts.expressions.extend((0..31).map(|operand| [9, operand, 0]));
    parts.further.push([1, 31, 31, 31, 0]);
    parts.gates.push(Gate { parameters: 0, arguments: 1, body: Some((0, 1)) });
    for level in 1..128 {
        let first = parts.further.len() as u64;
        parts.further.extend(vec![[3, level - 1, 0, 0, 0]; calls as usize]);
        parts.gates.push(Gate { parameters: 0, arguments: 1, body: Some((first, calls)) });
    }
    parts.main = vec![[3, 127, 0, 0, 0]];
    parts.words()
}

// ---- both sides

fn tally(image: &[u64], depth: u64) -> [u64; 11] {
    let mut answer = [0; 11];
    unsafe { cowhirame_tally(image.as_ptr(), image.len(), depth, answer.as_mut_ptr()) };
    answer
}

/// The sequence unit with the memory that the tally asks for.
struct Unit {
    output: Vec<u64>,
    trace: [u64; 256],
    answer: [u64; 6],
}

impl Unit {
    fn new(image: &[u64]) -> Unit {
        Unit { output: vec![0; tally(image, ALL)[10] as usize], trace: [0; 256], answer: [0; 6] }
    }

    /// The records of a run.
    fn run(&mut self, image: &[u64], depth: u64) -> u64 {
        unsafe {
            cowhirame_run(
                image.as_ptr(),
                image.len(),
                depth,
                self.output.as_mut_ptr(),
                self.output.len(),
                self.trace.as_mut_ptr(),
                self.trace.len(),
                self.answer.as_mut_ptr(),
            )
        };
        self.answer[3]
    }
}

/// The published linearizer's writer: the same words into memory that is there, but for the names of the head.
struct Sheet<'a> {
    output: &'a mut Vec<u64>,
    records: u64,
}

fn angle(value: Value) -> [u64; 4] {
    let parts = |part: Rational64| [*part.numer() as u64, *part.denom() as u64];
    let ([a, b], [c, d]) = (parts(value.a), parts(value.b));
    [a, b, c, d]
}

impl Sheet<'_> {
    fn put(&mut self, words: &[u64]) -> Result<(), Infallible> {
        self.records += 1;
        self.output.extend_from_slice(words);
        Ok(())
    }
}

impl GateWriter for &mut Sheet<'_> {
    type Error = Infallible;

    fn initialize(&mut self, qubits: &[Symbol], bits: &[Symbol]) -> Result<(), Infallible> {
        self.put(&[0, qubits.len() as u64, bits.len() as u64])
    }

    fn write_u(&mut self, theta: Value, phi: Value, lambda: Value, reg: usize) -> Result<(), Infallible> {
        let ([a, b, c, d], [e, f, g, h], [i, j, k, l]) = (angle(theta), angle(phi), angle(lambda));
        self.put(&[1, a, b, c, d, e, f, g, h, i, j, k, l, reg as u64])
    }

    fn write_cx(&mut self, control: usize, target: usize) -> Result<(), Infallible> {
        self.put(&[2, control as u64, target as u64])
    }

    fn write_opaque(&mut self, _: &Symbol, params: &[Value], args: &[usize]) -> Result<(), Infallible> {
        self.put(&[3, 0, params.len() as u64, args.len() as u64])?;
        self.output.extend(params.iter().flat_map(|value| angle(*value)));
        self.output.extend(args.iter().map(|qubit| *qubit as u64));
        Ok(())
    }

    fn write_barrier(&mut self, regs: &[usize]) -> Result<(), Infallible> {
        self.put(&[4, regs.len() as u64])?;
        self.output.extend(regs.iter().map(|qubit| *qubit as u64));
        Ok(())
    }

    fn write_measure(&mut self, from: usize, to: usize) -> Result<(), Infallible> {
        self.put(&[5, from as u64, to as u64])
    }

    fn write_reset(&mut self, reg: usize) -> Result<(), Infallible> {
        self.put(&[6, reg as u64])
    }

    fn start_conditional(&mut self, reg: usize, count: usize, val: u64) -> Result<(), Infallible> {
        self.put(&[7, reg as u64, count as u64, val])
    }

    fn end_conditional(&mut self) -> Result<(), Infallible> {
        self.put(&[8])
    }
}

/// The records of a run of the published linearizer.
fn published(program: &Program, output: &mut Vec<u64>) -> u64 {
    output.clear();
    let mut sheet = Sheet { output, records: 0 };
    if Linearize::new(&mut sheet, usize::MAX).visit_program(program).is_err() {
        panic!("refused");
    }
    sheet.records
}

// ---- times

/// Seconds of one turn, over as many turns as fill a round.
fn seconds(mut turn: impl FnMut()) -> f64 {
    let mut turns = 1;
    loop {
        let start = Instant::now();
        for _ in 0..turns {
            turn();
        }
        let time = start.elapsed().as_secs_f64();
        if time > ROUND {
            return time / turns as f64;
        }
        turns = (turns * 2).max((turns as f64 * ROUND * 1.1 / time.max(1e-9)) as u64);
    }
}

/// The middle one, the least and the largest.
fn spread(mut numbers: Vec<f64>) -> [f64; 3] {
    numbers.sort_by(f64::total_cmp);
    [numbers[numbers.len() / 2], numbers[0], numbers[numbers.len() - 1]]
}

fn compare(name: &str, images: &[Vec<u64>], rounds: usize) {
    let programs: Vec<Program> =
        images.iter().map(|image| image::program(&Image::new(image), MOST_NODES).expect("few nodes")).collect();
    let mut units: Vec<Unit> = images.iter().map(|image| Unit::new(image)).collect();
    let mut output = Vec::with_capacity(units.iter().map(|unit| unit.output.len()).max().unwrap());
    let mut records = 0;
    for ((image, program), unit) in images.iter().zip(&programs).zip(&mut units) {
        let ours = unit.run(image, ALL);
        assert_eq!((ours, unit.answer[0]), (published(program, &mut output), 0), "{name}");
        // All words but the head's must be the same.
        let head = unit.output[..].get(1..3).map_or(0, |counts| 3 + 2 * (counts[0] + counts[1]) as usize);
        if ours > 0 {
            let same = unit.output[head..unit.answer[4] as usize]
                == with_gate_numbers(&unit.output[head..], oracle::with_rising_barriers(&output[3..]));
            assert!(same, "{name}");
        }
        records += ours;
    }
    let (mut ours, mut theirs, mut copies, mut ratios) = (Vec::new(), Vec::new(), Vec::new(), Vec::new());
    let mut copy = vec![0; units.iter().map(|unit| unit.output.len()).max().unwrap()];
    for _ in 0..rounds {
        let unit_time = seconds(|| {
            for (image, unit) in images.iter().zip(&mut units) {
                black_box(unit.run(image, ALL));
            }
        });
        let published_time = seconds(|| {
            for program in &programs {
                black_box(published(program, &mut output));
            }
        });
        let copy_time = seconds(|| {
            for unit in &units {
                let words = unit.answer[4] as usize;
                black_box(&mut copy)[..words].copy_from_slice(black_box(&unit.output[..words]));
            }
        });
        copies.push(copy_time / records as f64 * 1e9);
        ours.push(unit_time / records as f64 * 1e9);
        theirs.push(published_time / records as f64 * 1e9);
        ratios.push(published_time / unit_time);
    }
    let ([ours, ..], [theirs, ..], [copies, ..]) = (spread(ours), spread(theirs), spread(copies));
    let [ratio, least, most] = spread(ratios);
    println!(
        "{name:42} {records:>6} records, ns each: unit {ours:7.1}, published {theirs:7.1}, a copy {copies:5.1}; \
         ratio {ratio:5.2} ({least:.2} to {most:.2})"
    );
}

/// The sheet has no gate's number; everything else is compared.
fn with_gate_numbers(unit: &[u64], mut published: Vec<u64>) -> Vec<u64> {
    let mut at = 0;
    while at < published.len() {
        let length = oracle::record_length(&published[at..]);
        if published[at] == 3 {
            published[at + 1] = unit[at + 1];
        }
        at += length.max(1);
    }
    published
}

fn alone(name: &str, words: usize, rounds: usize, mut turn: impl FnMut()) {
    let [middle, least, most] = spread((0..rounds).map(|_| seconds(&mut turn) * 1e6).collect());
    println!(
        "{name:44} {words:>8} words    {middle:10.2} us ({least:.2} to {most:.2}), {:.2} ns a word",
        middle * 1e3 / words as f64
    );
}

/// A run that the published linearizer would not end: 2^128 - 1 bodies are entered.
fn run_alone(name: &str, image: &[u64], rounds: usize) {
    let mut unit = Unit { output: vec![0; 5], trace: [0; 256], answer: [0; 6] };
    alone(name, image.len(), rounds, || {
        black_box(unit.run(image, ALL));
    });
    assert_eq!(unit.answer, [0, 0, 0, 1, 5, 0], "{name}");
}

fn check_and_tally(name: &str, image: &[u64], rounds: usize) {
    let mut answer = [0; 2];
    alone(&format!("check: {name}"), image.len(), rounds, || unsafe {
        cowhirame_check(image.as_ptr(), image.len(), black_box(&mut answer).as_mut_ptr())
    });
    assert_eq!(answer, [0, 0], "{name}");
    alone(&format!("tally: {name}"), image.len(), rounds, || {
        black_box(tally(image, ALL));
    });
}

/// The listing program on an image, from its start to its end, in seconds.
fn listed(program: &str, image: &[u64]) -> f64 {
    let bytes: Vec<u8> = [ALL].iter().chain(image).flat_map(|word| word.to_le_bytes()).collect();
    seconds(|| {
        let mut child = Command::new(program).stdin(Stdio::piped()).stdout(Stdio::null()).spawn().expect(program);
        child.stdin.take().unwrap().write_all(&bytes).expect("written");
        assert!(child.wait().expect("ended").success());
    })
}

/// What the listing of a full output takes beyond that of an empty one, beside the run alone.
fn listing_beside_run(program: &str, rounds: usize) {
    let image = broadcasts(&[511], [1, 2, 3, 0, 0], 1);
    let empty = Parts::default().words();
    let mut unit = Unit::new(&image);
    let words = (unit.run(&image, ALL), unit.answer[4]).1;
    let mut alone = Vec::new();
    let mut text = Vec::new();
    for _ in 0..rounds {
        alone.push(seconds(|| {
            black_box(unit.run(&image, ALL));
        }));
        text.push((listed(program, &image) - listed(program, &empty)).max(0.0));
    }
    let ([run, ..], [text, least, most]) = (spread(alone), spread(text));
    println!(
        "listing of {words} words: {:.0} us ({:.0} to {:.0}) beyond that of no words, the run alone {:.1} us",
        text * 1e6,
        least * 1e6,
        most * 1e6,
        run * 1e6
    );
}

/// Runs an image on a thread with a stack of so many bytes.
fn run_on_stack(bytes: usize) {
    let image = tower(1);
    let run = move || assert_eq!(Unit { output: vec![0; 100], trace: [0; 256], answer: [0; 6] }.run(&image, ALL), 2);
    thread::Builder::new().stack_size(bytes).spawn(run).expect("a thread").join().expect("run");
}

/// The smallest stack, in KiB, on which 128 nested calls and 32 levels of an expression are run.
fn stack() {
    let (mut low, mut high) = (16, 1 << 14);
    while high - low > 4 {
        let middle = (low + high) / 2;
        let program = env::current_exe().expect("this program");
        let mut child = Command::new(program);
        let status = child.args(["--stack", &middle.to_string()]).stderr(Stdio::null()).status().expect("a process");
        (low, high) = if status.success() { (low, middle) } else { (middle, high) };
    }
    println!("stack for 128 nested calls over an expression of 32 levels: {high} KiB");
}

fn main() {
    let words: Vec<String> = env::args().skip(1).collect();
    if let [option, kib] = &words[..] {
        assert_eq!(option, "--stack");
        return run_on_stack(kib.parse::<usize>().expect("a number of KiB") << 10);
    }
    let rounds = words.first().map_or(15, |word| word.parse().expect("a number of rounds"));
    let u = [1, 2, 3, 0, 0];
    compare("(a) U on 4,096 qubits, 20 times", &[broadcasts(&[4096], u, 20)], rounds);
    compare("(a) U on 4,096 qubits, once", &[broadcasts(&[4096], u, 1)], rounds);
    let cx = [2, 0, 1, 0, 0];
    compare("(a) CX of 2,048 pairs, 40 times", &[broadcasts(&[2048, 2048], cx, 40)], rounds);
    compare("(a) CX of one and 4,095, 20 times", &[broadcasts(&[1, 4095], cx, 20)], rounds);
    for parameters in [0, 1, 3] {
        let name = format!("(b) 12 levels of doubling, {parameters} parameters");
        compare(&name, &[doubling(12, parameters)], rounds);
    }
    compare("(c) 1,000 U, 100 expressions of ten nodes", &[expressions(1000, 100)], rounds);
    compare("(c) 500 U, 180 expressions of ten nodes", &[expressions(500, 180)], rounds);
    compare("(d) 200 programs of 8 to 12 records", &small(200), rounds);
    compare("(e) adder of 16 bits, over the usual gates", &[adder(16)], rounds);
    compare("(e) Fourier transform of 12 qubits", &[fourier(12)], rounds);
    compare("(f) 200 calls of a gate, an angle each", &[ten_records(200, false)], rounds);
    compare("(f) 160 u1 with an angle each, 152 cx", &[layers(20, 8)], rounds);
    compare("(f) 200 calls of a gate, the same angle", &[ten_records(200, true)], rounds);
    run_alone("(g) 128 levels of silent doubling", &silent_doubling(), rounds.min(5));
    for count in [10, 100, 1000] {
        check_and_tally(&format!("{count} U"), &expressions(count, 10), rounds.min(5));
    }
    for calls in [1, 2, 11] {
        check_and_tally(&format!("128 gates, {calls}-fold"), &tower(calls), rounds.min(5));
    }
    match env::var("COWHIRAME_LISTING") {
        Ok(program) => listing_beside_run(&program, rounds),
        Err(_) => println!("COWHIRAME_LISTING does not name the listing program: it was not measured"),
    }
    stack();
}
