//! An accepted image as a program of the published crate.
use openqasm::ast::{Decl, Expr, Program, Reg, Span, Stmt, Symbol};
use openqasm::place;

/// An image whose contents add up; numbers of entries start at 0, statements are numbered through.
pub struct Image<'a> {
    pub words: &'a [u64],
    starts: [usize; 8],
}

pub const QUANTUM: usize = 0;
pub const CLASSICAL: usize = 1;
pub const GATES: usize = 2;
pub const MAIN: usize = 3;
pub const FURTHER: usize = 4;
pub const ARGUMENTS: usize = 5;
pub const PARAMETERS: usize = 6;
pub const EXPRESSIONS: usize = 7;

const ENTRY_WORDS: [usize; 8] = [1, 1, 5, 5, 5, 2, 1, 3];

/// The bits of the f32 that stands for a literal of 2^63 or more: a NaN, which the source refuses.
pub const WRAPPING_LITERAL: u32 = 0x7FC0_0063;
/// Every other NaN of an image, as document 01 reports it.
pub const NAN: u32 = 0x7FC0_0000;

impl<'a> Image<'a> {
    pub fn new(words: &'a [u64]) -> Image<'a> {
        let mut starts = [9; 8];
        for list in 1..8 {
            starts[list] = starts[list - 1] + words[list] as usize * ENTRY_WORDS[list - 1];
        }
        Image { words, starts }
    }

    pub fn count(&self, list: usize) -> usize {
        self.words[1 + list] as usize
    }

    pub fn place(&self, list: usize, number: u64) -> usize {
        self.starts[list] + ENTRY_WORDS[list] * number as usize
    }

    pub fn entry(&self, list: usize, number: u64) -> &'a [u64] {
        let place = self.place(list, number);
        &self.words[place..place + ENTRY_WORDS[list]]
    }

    /// A main or further statement: the lists lie side by side.
    pub fn statement(&self, number: u64) -> &'a [u64] {
        self.entry(MAIN, number)
    }

    pub fn sizes(&self, sort: usize) -> &'a [u64] {
        &self.words[self.starts[sort]..self.starts[sort + 1]]
    }

    pub fn has_conditional(&self) -> bool {
        (0..self.count(MAIN) as u64).any(|number| self.statement(number)[0] == 7)
    }
}

fn span<T>(place: usize, inner: T) -> Span<T> {
    Span { span: place::span(place), inner: Box::new(inner) }
}

/// Names are a letter and a number: q, c registers; g gates; p, a the formals of a gate.
fn name(letter: char, number: u64) -> Symbol {
    Symbol::new(format!("{letter}{number}"))
}

/// The program of an accepted image, or None if its expressions have too many nodes as trees.
///
/// Each part carries the place that document 01 gives it. The source seeks a conditional's register among the
/// quantum ones: if there is a conditional, each classical register has a quantum namesake after all others.
pub fn program(image: &Image, most_nodes: usize) -> Option<Program> {
    let mut builder = Builder { image, nodes_left: most_nodes };
    let mut decls = Vec::new();
    for (sort, letter) in [(QUANTUM, 'q'), (CLASSICAL, 'c')] {
        for (number, size) in image.sizes(sort).iter().enumerate() {
            let at = image.place(sort, number as u64);
            let reg = span(at, Reg { name: name(letter, number as u64), index: Some(*size) });
            if sort == CLASSICAL && image.has_conditional() {
                decls.push(span(at, Decl::QReg { reg: reg.clone() }));
            }
            decls.push(span(at, if sort == QUANTUM { Decl::QReg { reg } } else { Decl::CReg { reg } }));
        }
    }
    for number in 0..image.count(GATES) as u64 {
        decls.push(builder.definition(number)?);
    }
    for number in 0..image.count(MAIN) as u64 {
        let statement = builder.statement(None, number)?;
        decls.push(span(image.place(MAIN, number), Decl::Stmt(statement)));
    }
    Some(Program { decls })
}

struct Builder<'a> {
    image: &'a Image<'a>,
    nodes_left: usize,
}

impl Builder<'_> {
    fn definition(&mut self, number: u64) -> Option<Span<Decl>> {
        let at = self.image.place(GATES, number);
        let [parameters, arguments, with_body, first, length] = *self.image.entry(GATES, number) else {
            unreachable!()
        };
        let formals = |letter, count| (0..count).map(|formal| span(at, name(letter, formal))).collect();
        let body = match with_body {
            0 => None,
            _ => Some((first..first + length).map(|s| self.statement(Some(number), s)).collect::<Option<_>>()?),
        };
        Some(span(
            at,
            Decl::Def {
                name: span(at, name('g', number)),
                params: formals('p', parameters),
                args: formals('a', arguments),
                body,
            },
        ))
    }

    /// A statement of main, or of a gate's body.
    fn statement(&mut self, gate: Option<u64>, number: u64) -> Option<Span<Stmt>> {
        let at = self.image.place(MAIN, number);
        let [kind, first, second, third, fourth] = *self.image.statement(number) else { unreachable!() };
        let quantum = |argument| self.argument(gate, QUANTUM, argument);
        let statement = match kind {
            1 => {
                let reg = quantum(fourth);
                Stmt::U {
                    theta: self.expression(first)?,
                    phi: self.expression(second)?,
                    lambda: self.expression(third)?,
                    reg,
                }
            }
            // The source calls the control of a CX `copy` and its target `xor`.
            2 => Stmt::CX { copy: quantum(first), xor: quantum(second) },
            3 => {
                let called = self.image.entry(GATES, first);
                let args = (third..third + called[1]).map(quantum).collect();
                let params = (second..second + called[0])
                    .map(|parameter| self.expression(self.image.entry(PARAMETERS, parameter)[0]));
                Stmt::Gate { params: params.collect::<Option<_>>()?, name: span(at, name('g', first)), args }
            }
            4 => Stmt::Barrier { regs: (first..first + second).map(quantum).collect() },
            5 => Stmt::Measure { from: quantum(first), to: self.argument(gate, CLASSICAL, second) },
            6 => Stmt::Reset { reg: quantum(first) },
            7 => Stmt::Conditional {
                reg: span(at, Reg { name: name('c', first), index: None }),
                val: span(at, second),
                then: self.statement(gate, third)?,
            },
            _ => unreachable!("kind {kind}"),
        };
        Some(span(at, statement))
    }

    fn argument(&self, gate: Option<u64>, sort: usize, number: u64) -> Span<Reg> {
        let [register, index] = *self.image.entry(ARGUMENTS, number) else { unreachable!() };
        let letter = if gate.is_some() { 'a' } else { ['q', 'c'][sort] };
        span(self.image.place(ARGUMENTS, number), Reg { name: name(letter, register), index: index.checked_sub(1) })
    }

    fn expression(&mut self, number: u64) -> Option<Span<Expr>> {
        self.nodes_left = self.nodes_left.checked_sub(1)?;
        let [kind, first, second] = *self.image.entry(EXPRESSIONS, number) else { unreachable!() };
        let expression = match kind {
            0 => Expr::Pi,
            1 => Expr::Real(real(first as u32)),
            2 if first >= 1 << 63 => Expr::Real(f32::from_bits(WRAPPING_LITERAL)),
            2 => Expr::Int(first),
            3 => Expr::Var(name('p', first)),
            4..=8 => {
                let operands = (self.expression(first)?, self.expression(second)?);
                [Expr::Add, Expr::Sub, Expr::Mul, Expr::Div, Expr::Pow][kind as usize - 4](operands.0, operands.1)
            }
            9..=15 => {
                let functions = [Expr::Neg, Expr::Sin, Expr::Cos, Expr::Tan, Expr::Exp, Expr::Ln, Expr::Sqrt];
                functions[kind as usize - 9](self.expression(first)?)
            }
            _ => unreachable!("kind {kind}"),
        };
        Some(span(self.image.place(EXPRESSIONS, number), expression))
    }
}

fn real(bits: u32) -> f32 {
    let value = f32::from_bits(bits);
    if value.is_nan() {
        f32::from_bits(NAN)
    } else {
        value
    }
}
