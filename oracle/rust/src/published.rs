//! A run of the published linearizer as document 01's numbers, records and trace.
use crate::image::{self, Image};
use crate::Outcome;
use num::watch;
use openqasm::ast::{FileSpan, Symbol};
use openqasm::place;
use openqasm::translate::{GateWriter, Linearize, LinearizeError, LinearizeErrorKind, ProgramVisitor, Value};
use std::fmt;
use std::panic::{catch_unwind, AssertUnwindSafe};

/// Whether an end is inside document 01's domain of the comparison.
#[derive(Debug, Copy, Clone, PartialEq, Eq, PartialOrd, Ord)]
pub enum Domain {
    Inside,
    /// Ended in a function of floats.
    FloatFunction,
    /// Ended in an overflow that the source does not test.
    UntestedOverflow,
    /// Ended in a literal of 2^63 or more.
    Literal,
}

impl fmt::Display for Domain {
    fn fmt(&self, f: &mut fmt::Formatter) -> fmt::Result {
        f.write_str(match self {
            Domain::Inside => "",
            Domain::FloatFunction => " by a function of floats",
            Domain::UntestedOverflow => " by an overflow not tested in the source",
            Domain::Literal => " by a literal of 2^63 or more",
        })
    }
}

pub struct Run {
    pub outcome: Outcome,
    pub domain: Domain,
    /// The program has a conditional, which is outside of the domain too.
    pub conditional: bool,
    /// The source went on after an overflow that it does not test; this can only be so with feature `plain`.
    pub untested: bool,
}

/// The published linearizer's run of an accepted image with so many output words lent; None if the image's
/// expressions have too many nodes as trees.
pub fn run(words: &[u64], depth: u64, room: usize, most_nodes: usize) -> Option<Run> {
    let image = Image::new(words);
    let program = image::program(&image, most_nodes)?;
    let mut sheet = Sheet { room, records: 0, output: Vec::new(), qubits: image.sizes(image::QUANTUM).iter().sum() };
    watch::take_overflowed();
    let result =
        catch_unwind(AssertUnwindSafe(|| Linearize::new(Pen(&mut sheet), depth as usize).visit_program(&program)));
    let untested = watch::take_overflowed();
    let mut outcome = Outcome { records: sheet.records, output: sheet.output, ..Outcome::default() };
    let mut domain = Domain::Inside;
    match result {
        Ok(Ok(())) => (),
        Ok(Err(error)) => domain = refuse(&mut outcome, error),
        Err(_) => outcome.number = PANICKED,
    }
    Some(Run { outcome, domain, conditional: image.has_conditional(), untested })
}

/// A number that document 01 does not have.
pub const PANICKED: u64 = u64::MAX;

fn refuse(outcome: &mut Outcome, error: LinearizeError) -> Domain {
    let at = |span: FileSpan| place::of(span);
    let mut domain = Domain::Inside;
    (outcome.number, outcome.place, outcome.second) = match error.kind {
        LinearizeErrorKind::DivideByZero { span } => (9, at(span), 0),
        LinearizeErrorKind::ApproximateFail { span, value } => match value.to_bits() {
            watch::FLOAT_FUNCTION => {
                domain = Domain::FloatFunction;
                (13, at(span), 0)
            }
            watch::UNTESTED_OVERFLOW => {
                domain = Domain::UntestedOverflow;
                (11, at(span), 0)
            }
            image::WRAPPING_LITERAL => {
                domain = Domain::Literal;
                (11, at(span), 0)
            }
            bits => (10, at(span), if value.is_nan() { image::NAN } else { bits } as u64),
        },
        LinearizeErrorKind::NumericalOverflow { span } => (11, at(span), 0),
        LinearizeErrorKind::OverlappingRegs { a, b } => (12, at(a), at(b)),
        LinearizeErrorKind::WriterError { .. } => (14, 0, 0),
    };
    for (caller, call) in error.stack {
        let scope = if caller.as_str() == "<toplevel>" { 0 } else { numbers(&caller)[0] + 1 };
        outcome.trace.extend([scope, at(call)]);
    }
    domain
}

/// The numbers of a name, as "g3" or "q3[5]".
fn numbers(name: &Symbol) -> Vec<u64> {
    let parts = name.as_str().split(|c: char| !c.is_ascii_digit()).filter(|part| !part.is_empty());
    parts.map(|part| part.parse().unwrap()).collect()
}

/// The records written, in an output of so many words.
struct Sheet {
    room: usize,
    records: u64,
    output: Vec<u64>,
    qubits: u64,
}

impl Sheet {
    fn write(&mut self, record: &[u64]) -> Result<(), Full> {
        if record.len() > self.room - self.output.len() {
            return Err(Full);
        }
        self.output.extend(record);
        self.records += 1;
        Ok(())
    }
}

/// A record is longer than the words left.
#[derive(Debug)]
struct Full;

impl fmt::Display for Full {
    fn fmt(&self, f: &mut fmt::Formatter) -> fmt::Result {
        f.write_str("output full")
    }
}

impl std::error::Error for Full {}

struct Pen<'a>(&'a mut Sheet);

fn words(indices: &[usize]) -> impl Iterator<Item = u64> + '_ {
    indices.iter().map(|index| *index as u64)
}

fn angle(value: &Value) -> [u64; 4] {
    [value.a.numer(), value.a.denom(), value.b.numer(), value.b.denom()].map(|number| *number as u64)
}

impl GateWriter for Pen<'_> {
    type Error = Full;

    fn initialize(&mut self, qubits: &[Symbol], bits: &[Symbol]) -> Result<(), Full> {
        // A conditional's namesakes come after the image's own qubits.
        let qubits = &qubits[..self.0.qubits as usize];
        let mut record = vec![0, qubits.len() as u64, bits.len() as u64];
        record.extend(qubits.iter().chain(bits).flat_map(numbers));
        self.0.write(&record)
    }

    fn write_u(&mut self, theta: Value, phi: Value, lambda: Value, reg: usize) -> Result<(), Full> {
        let mut record = vec![1];
        record.extend([theta, phi, lambda].iter().flat_map(angle));
        record.push(reg as u64);
        self.0.write(&record)
    }

    fn write_cx(&mut self, control: usize, target: usize) -> Result<(), Full> {
        self.0.write(&[2, control as u64, target as u64])
    }

    fn write_opaque(&mut self, name: &Symbol, params: &[Value], args: &[usize]) -> Result<(), Full> {
        let mut record = vec![3, numbers(name)[0], params.len() as u64, args.len() as u64];
        record.extend(params.iter().flat_map(angle));
        record.extend(words(args));
        self.0.write(&record)
    }

    fn write_barrier(&mut self, regs: &[usize]) -> Result<(), Full> {
        let mut record = vec![4, regs.len() as u64];
        record.extend(words(regs));
        self.0.write(&record)
    }

    fn write_measure(&mut self, from: usize, to: usize) -> Result<(), Full> {
        self.0.write(&[5, from as u64, to as u64])
    }

    fn write_reset(&mut self, reg: usize) -> Result<(), Full> {
        self.0.write(&[6, reg as u64])
    }

    fn start_conditional(&mut self, reg: usize, count: usize, val: u64) -> Result<(), Full> {
        // The register found is a namesake: its first qubit tells the first bit.
        self.0.write(&[7, reg as u64 - self.0.qubits, count as u64, val])
    }

    fn end_conditional(&mut self) -> Result<(), Full> {
        self.0.write(&[8])
    }
}
