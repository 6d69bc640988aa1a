//! Registers, statements and gates.
use super::{Gate, Generator};
use crate::random::Random;

/// An argument of main: a register, and the index + 1 or 0.
pub(super) type Argument = [u64; 2];

impl Generator {
    pub(super) fn registers(&mut self) {
        let one_size = self.random.within(1, 5);
        let sizes = |generator: &mut Generator, most: u64| {
            let count = generator.random.below(most + 1);
            let size = |generator: &mut Generator| match generator.random.below(10) {
                0..=4 => one_size,
                5 | 6 => 1,
                7 | 8 => generator.random.within(1, 6),
                _ if generator.random.percent(95) => generator.random.within(1, 40),
                _ => generator.random.within(1, 700),
            };
            (0..count).map(|_| size(generator)).collect::<Vec<u64>>()
        };
        self.parts.quantum = sizes(self, 5);
        self.parts.classical = sizes(self, 3);
        if self.parts.quantum.is_empty() && self.random.percent(90) {
            self.parts.quantum = vec![one_size];
        }
    }

    /// An argument of main with this size, if there is one; another than those taken if that is soon found.
    fn sized_argument(&mut self, registers: &[u64], size: u64, taken: &[Argument]) -> Option<Argument> {
        let fitting: Vec<u64> =
            (0..registers.len() as u64).filter(|register| registers[*register as usize] == size).collect();
        let careful = self.random.percent(97);
        let mut found = None;
        for _ in 0..12 {
            found = if size == 1 && (fitting.is_empty() || self.random.percent(70)) {
                let register = self.random.below(registers.len() as u64);
                Some([register, 1 + self.random.below(registers[register as usize])])
            } else if fitting.is_empty() {
                None
            } else {
                Some([self.random.of(&fitting), 0])
            };
            let overlaps = |argument: Argument| {
                taken.iter().any(|other| {
                    other[0] == argument[0] && (other[1] == 0 || argument[1] == 0 || other[1] == argument[1])
                })
            };
            if !careful || !found.is_some_and(overlaps) {
                return found;
            }
        }
        if self.random.percent(90) {
            None
        } else {
            found
        }
    }

    /// Arguments of main for a broadcast: all sizes other than 1 equal.
    fn broadcast(&mut self, count: u64) -> Option<Vec<Argument>> {
        let registers = self.parts.quantum.clone();
        if registers.is_empty() {
            return if count == 0 { Some(Vec::new()) } else { None };
        }
        let large = self.random.of(&registers);
        let mut arguments = Vec::new();
        for _ in 0..count {
            let size = if self.random.percent(50) { large } else { 1 };
            arguments.push(self.sized_argument(&registers, size, &arguments)?);
        }
        Some(arguments)
    }

    /// Formal arguments of a body, mostly different ones.
    fn formals(&mut self, formals: u64, count: u64) -> Option<Vec<Argument>> {
        if formals == 0 {
            return if count == 0 { Some(Vec::new()) } else { None };
        }
        let careful = self.random.percent(97);
        let mut arguments: Vec<Argument> = Vec::new();
        for _ in 0..count {
            let mut argument = [self.random.below(formals), 0];
            for _ in 0..12 {
                if !careful || !arguments.contains(&argument) {
                    break;
                }
                argument = [self.random.below(formals), 0];
            }
            arguments.push(argument);
        }
        Some(arguments)
    }

    /// Puts a run of arguments down and gives its first; an empty run starts anywhere.
    pub(super) fn placed(&mut self, arguments: &[Argument]) -> u64 {
        let count = self.parts.arguments.len() as u64;
        if arguments.is_empty() {
            return self.random.below(count + 1);
        }
        self.parts.arguments.extend(arguments);
        count
    }

    pub(super) fn chosen(&mut self, formals: Option<u64>, count: u64) -> Option<Vec<Argument>> {
        match formals {
            Some(formals) => self.formals(formals, count),
            None => self.broadcast(count),
        }
    }

    pub(super) fn u(&mut self, formals: Option<u64>) -> Option<[u64; 5]> {
        let arguments = self.chosen(formals, 1)?;
        let angles = [self.expression(), self.expression(), self.expression()];
        Some([1, angles[0], angles[1], angles[2], self.placed(&arguments)])
    }

    pub(super) fn cx(&mut self, formals: Option<u64>) -> Option<[u64; 5]> {
        if formals.is_some_and(|formals| formals < 2) && self.random.percent(90) {
            return None;
        }
        let arguments = self.chosen(formals, 2)?;
        let first = self.placed(&arguments);
        Some([2, first, first + 1, 0, 0])
    }

    fn call(&mut self, formals: Option<u64>, gate: u64) -> Option<[u64; 5]> {
        let Gate { parameters, arguments, .. } = self.parts.gates[gate as usize];
        let opaque = self.parts.gates[gate as usize].body.is_none();
        if opaque && formals.is_some_and(|formals| formals < arguments) && self.random.percent(90) {
            return None;
        }
        let arguments = self.chosen(formals, arguments)?;
        let expressions: Vec<u64> = (0..parameters).map(|_| self.expression()).collect();
        let mut first = self.parts.parameters.len() as u64;
        if expressions.is_empty() {
            first = self.random.below(first + 1);
        }
        self.parts.parameters.extend(expressions);
        Some([3, gate, first, self.placed(&arguments), 0])
    }

    pub(super) fn barrier(&mut self, formals: Option<u64>) -> Option<[u64; 5]> {
        let count = self.random.below(5);
        let arguments = match formals {
            Some(_) => self.chosen(formals, count)?,
            None if self.parts.quantum.is_empty() => Vec::new(),
            None => {
                let argument = |generator: &mut Generator| {
                    let register = generator.random.below(generator.parts.quantum.len() as u64);
                    [register, generator.random.below(generator.parts.quantum[register as usize] + 1)]
                };
                (0..count).map(|_| argument(self)).collect()
            }
        };
        Some([4, self.placed(&arguments), arguments.len() as u64, 0, 0])
    }

    pub(super) fn measure(&mut self) -> Option<[u64; 5]> {
        if self.parts.quantum.is_empty() || self.parts.classical.is_empty() {
            return None;
        }
        let (quantum, classical) = (self.parts.quantum.clone(), self.parts.classical.clone());
        let size = self.random.of(&quantum);
        let other = if self.random.percent(30) { self.random.of(&classical) } else { size };
        let (from, to) = match self.random.below(3) {
            0 => (self.sized_argument(&quantum, size, &[])?, self.sized_argument(&classical, size, &[])?),
            1 => (self.sized_argument(&quantum, size, &[])?, self.sized_argument(&classical, 1, &[])?),
            _ => (self.sized_argument(&quantum, 1, &[])?, self.sized_argument(&classical, other, &[])?),
        };
        let from = self.placed(&[from]);
        Some([5, from, self.placed(&[to]), 0, 0])
    }

    pub(super) fn reset(&mut self) -> Option<[u64; 5]> {
        let arguments = self.broadcast(1)?;
        Some([6, self.placed(&arguments), 0, 0, 0])
    }

    fn conditional(&mut self) -> Option<[u64; 5]> {
        if self.parts.classical.is_empty() {
            return None;
        }
        let inner = match self.random.below(5) {
            0 => self.u(None),
            1 => self.cx(None),
            2 => self.any_call(None, self.parts.gates.len() as u64),
            3 => self.measure(),
            _ => self.reset(),
        }?;
        let register = self.random.below(self.parts.classical.len() as u64);
        let value = if self.random.percent(80) { self.random.below(8) } else { self.random.word() };
        self.parts.further.push(inner);
        Some([7, register, value, self.parts.further.len() as u64 - 1, 0])
    }

    fn any_call(&mut self, formals: Option<u64>, gates: u64) -> Option<[u64; 5]> {
        if gates == 0 {
            return None;
        }
        // Often one of the last, so that calls nest.
        let gate = if self.random.percent(60) {
            gates - 1 - self.random.below(gates.min(3))
        } else {
            self.random.below(gates)
        };
        self.call(formals, gate)
    }

    fn body_statement(&mut self, formals: u64, gates: u64) -> Option<[u64; 5]> {
        match self.random.below(10) {
            0..=2 => self.u(Some(formals)),
            3 | 4 => self.cx(Some(formals)),
            5..=8 => self.any_call(Some(formals), gates),
            _ => self.barrier(Some(formals)),
        }
    }

    pub(super) fn gate(&mut self) {
        let number = self.parts.gates.len() as u64;
        let small = |random: &mut Random| match random.below(20) {
            0 => random.within(4, 16),
            _ => random.below(4),
        };
        let (parameters, arguments) = (small(&mut self.random), small(&mut self.random));
        let arguments = if arguments == 0 && self.random.percent(70) { 1 } else { arguments };
        self.variables = parameters;
        let body = if self.random.percent(25) {
            None
        } else {
            let wanted = self.random.below(5);
            let statements: Vec<_> = (0..wanted).filter_map(|_| self.body_statement(arguments, number)).collect();
            Some(self.further(&statements))
        };
        self.variables = 0;
        self.parts.gates.push(Gate { parameters, arguments, body });
    }

    /// Puts a body down; an empty one may start anywhere in the further statements.
    pub(super) fn further(&mut self, statements: &[[u64; 5]]) -> (u64, u64) {
        let first = self.parts.further.len() as u64;
        if statements.is_empty() {
            return (self.random.below(first + 1), 0);
        }
        self.parts.further.extend(statements);
        (first, statements.len() as u64)
    }

    /// Many gates, each calling the one before.
    pub(super) fn tower(&mut self, levels: u64) {
        let mut doublings = self.random.below(4);
        let (parameters, arguments) = (self.random.below(3), self.random.within(1, 3));
        for number in 0..levels {
            self.variables = parameters;
            let mut statements = Vec::new();
            if number == 0 || self.random.percent(10) {
                statements.extend(self.u(Some(arguments)));
                statements.extend(self.cx(Some(arguments)));
            }
            if number > 0 {
                statements.extend(self.call(Some(arguments), number - 1));
                if doublings > 0 && self.random.percent(10) {
                    doublings -= 1;
                    statements.extend(self.call(Some(arguments), number - 1));
                }
            }
            let body = Some(self.further(&statements));
            self.variables = 0;
            self.parts.gates.push(Gate { parameters, arguments, body });
        }
    }

    pub(super) fn main(&mut self, conditionals: bool) {
        let wanted = match self.random.below(100) {
            0..=3 => 0,
            4 => self.random.within(50, 300),
            _ => self.random.within(1, 9),
        };
        for _ in 0..wanted {
            let gates = self.parts.gates.len() as u64;
            let statement = match self.random.below(if conditionals { 20 } else { 15 }) {
                0..=2 => self.u(None),
                3 | 4 => self.cx(None),
                5..=9 => self.any_call(None, gates),
                10 | 11 => self.barrier(None),
                12 | 13 => self.measure(),
                14 => self.reset(),
                _ => self.conditional(),
            };
            self.parts.main.extend(statement);
        }
    }
}
