//! Programs whose calls repeat.
//!
//! Two calls in three are an earlier call of the same body, or of main, made again. Of those made again seven in ten have
//! the same angles, one of these in seven by an expression of its own; the others have one other angle, the angles turned
//! round, or all other. A quarter is on the same qubits, a quarter on others, a quarter has two qubits swapped or all
//! turned round, and the rest has two equal qubits or, in main, a whole register in a qubit's place. One in ten calls any
//! gate that has as many parameters and arguments.
//!
//! Equal qubits end a run where a CX or an opaque gate has them: so they are rare for gates in which one stands, and
//! frequent for all others. Of eight gates one is opaque and one has nothing to write; some share a body. One program in
//! twelve has 17 to 40 gates. In one of five each gate calls the two below it, so that it is called with more levels left
//! in one place than in another.
use super::expressions::{DIVIDE, MINUS, NEGATE, PLUS, TIMES};
use super::statements::Argument;
use super::{Gate, Generator};
use crate::random::Random;

/// The most output words of a body and of main when everything is opened; body entries are at most half as many.
const BODY_WORDS: u64 = 300;
const MAIN_WORDS: u64 = 4000;

/// A call, as it can be made again.
#[derive(Clone)]
struct Call {
    gate: u64,
    parameters: Vec<u64>,
    arguments: Vec<Argument>,
}

/// What is known of a gate's body: its output words and the body entries in it when everything is opened, and whether a
/// CX or an opaque gate in it may refuse equal qubits.
#[derive(Copy, Clone, Default)]
struct Known {
    words: u64,
    entries: u64,
    strict: bool,
}

/// A body that is made, with the count of its formals, or main; and the calls that it has so far.
struct Scope {
    formals: Option<u64>,
    calls: Vec<Call>,
    known: Known,
}

impl Scope {
    fn new(formals: Option<u64>) -> Scope {
        Scope { formals, calls: Vec::new(), known: Known::default() }
    }

    /// Counts a statement of so many rounds, unless too much would be written.
    fn takes(&mut self, statement: Known, rounds: u64) -> bool {
        let most = if self.formals.is_some() { BODY_WORDS } else { MAIN_WORDS };
        let words = self.known.words + statement.words * rounds;
        let entries = self.known.entries + statement.entries * rounds;
        if words > most || entries > most / 2 {
            return false;
        }
        self.known = Known { words, entries, strict: self.known.strict || statement.strict };
        true
    }
}

pub(super) struct Repeats {
    generator: Generator,
    /// Expressions without a variable, some of which differ in one part only.
    angles: Vec<u64>,
    gates: Vec<Known>,
}

impl Repeats {
    pub(super) fn new(generator: Generator) -> Repeats {
        Repeats { generator, angles: Vec::new(), gates: Vec::new() }
    }

    /// The words of a program.
    pub(super) fn words(mut self, conditionals: bool) -> Vec<u64> {
        self.registers();
        self.angles();
        let random = &mut self.generator.random;
        let gates = match random.below(10) {
            0..=6 => random.within(2, 8),
            7 | 8 => random.within(9, 16),
            _ => random.within(17, 40),
        };
        if random.percent(20) {
            self.ladder();
        } else {
            (0..gates).for_each(|_| self.gate());
        }
        self.main(conditionals);
        self.generator.parts.words()
    }

    fn registers(&mut self) {
        let random = &mut self.generator.random;
        let one_size = random.within(2, 5);
        let size = |random: &mut Random| match random.below(20) {
            0..=12 => one_size,
            13..=15 => 1,
            16 | 17 => random.within(1, 8),
            _ => random.within(1, 40),
        };
        self.generator.parts.quantum = (0..random.within(1, 3)).map(|_| size(random)).collect();
        self.generator.parts.classical = (0..random.below(3)).map(|_| random.within(1, 4)).collect();
    }

    // ---- angles

    fn angles(&mut self) {
        for _ in 0..self.generator.random.within(1, 3) {
            let angle = self.plain_angle();
            self.angles.push(angle);
            for _ in 0..self.generator.random.below(4) {
                let near = self.near(angle);
                self.angles.push(near);
            }
        }
    }

    /// A fraction, a fraction of pi, or the sum of both.
    fn plain_angle(&mut self) -> u64 {
        let generator = &mut self.generator;
        let (n, d) = (generator.random.below(9), generator.random.within(1, 8));
        let fraction = generator.ratio(n, d);
        match generator.random.below(3) {
            0 => fraction,
            1 => generator.times_pi(fraction),
            _ => {
                let more = generator.times_pi(fraction);
                generator.binary(PLUS, fraction, more)
            }
        }
    }

    /// An angle that differs from this one in its sign, its denominators, or one of its parts.
    fn near(&mut self, angle: u64) -> u64 {
        let generator = &mut self.generator;
        match generator.random.below(4) {
            0 => generator.unary(NEGATE, angle),
            1 => {
                let divisor = generator.random.within(2, 4);
                let divisor = generator.integer(divisor);
                generator.binary(DIVIDE, angle, divisor)
            }
            2 => {
                let pi = generator.pi();
                generator.binary(PLUS, angle, pi)
            }
            _ => {
                let one = generator.integer(1);
                generator.binary(MINUS, angle, one)
            }
        }
    }

    /// The same angle by an expression of its own, unless that has too many levels.
    fn equal(&mut self, angle: u64) -> u64 {
        let made = self.generator.kept(|generator| match generator.random.below(3) {
            0 => {
                let zero = generator.integer(0);
                generator.binary(PLUS, angle, zero)
            }
            1 => {
                let one = generator.integer(1);
                generator.binary(TIMES, angle, one)
            }
            _ => {
                let negative = generator.unary(NEGATE, angle);
                generator.unary(NEGATE, negative)
            }
        });
        made.unwrap_or(angle)
    }

    /// An angle for a parameter: mostly a variable as it is, or one of the few that all calls share.
    fn angle(&mut self) -> u64 {
        let variables = self.generator.variables > 0;
        match self.generator.random.below(20) {
            0..=11 if variables => self.generator.variable(),
            12 | 13 if variables => {
                let variable = self.generator.variable();
                self.near(variable)
            }
            14 => self.generator.expression(),
            _ => self.generator.random.of(&self.angles),
        }
    }

    // ---- calls

    /// A new call. Half of those in a body hand its parameters on in their order.
    fn new_call(&mut self, formals: Option<u64>, gate: u64) -> Option<Call> {
        let Gate { parameters, arguments, .. } = self.generator.parts.gates[gate as usize];
        let arguments = self.generator.chosen(formals, arguments)?;
        if !self.fit(formals, gate, &arguments) {
            return None;
        }
        let variables = self.generator.variables;
        let parameters = if variables > 0 && self.generator.random.percent(50) {
            (0..parameters).map(|number| self.generator.numbered_variable(number % variables)).collect()
        } else {
            (0..parameters).map(|_| self.angle()).collect()
        };
        Some(Call { gate, parameters, arguments })
    }

    /// An earlier call made again, unless its arguments do not fit.
    fn again(&mut self, formals: Option<u64>, earlier: Call) -> Option<Call> {
        let gate = if self.generator.random.percent(10) { self.of_same_counts(earlier.gate) } else { earlier.gate };
        let parameters = self.parameters_again(earlier.parameters);
        let arguments = self.arguments_again(formals, gate, earlier.arguments)?;
        Some(Call { gate, parameters, arguments })
    }

    /// A gate that has as many parameters and arguments.
    fn of_same_counts(&mut self, gate: u64) -> u64 {
        let gates = &self.generator.parts.gates;
        let counts = |gate: u64| (gates[gate as usize].parameters, gates[gate as usize].arguments);
        let found: Vec<u64> = (0..gates.len() as u64).filter(|other| counts(*other) == counts(gate)).collect();
        self.generator.random.of(&found)
    }

    fn parameters_again(&mut self, mut parameters: Vec<u64>) -> Vec<u64> {
        if parameters.is_empty() {
            return parameters;
        }
        let at = self.generator.random.below(parameters.len() as u64) as usize;
        match self.generator.random.below(20) {
            0..=11 => (),
            12 | 13 => parameters[at] = self.equal(parameters[at]),
            14..=16 => parameters[at] = self.angle(),
            17 => parameters.rotate_left(1),
            _ => parameters = parameters.iter().map(|_| self.angle()).collect(),
        }
        parameters
    }

    fn arguments_again(
        &mut self,
        formals: Option<u64>,
        gate: u64,
        mut arguments: Vec<Argument>,
    ) -> Option<Vec<Argument>> {
        let count = arguments.len() as u64;
        if count == 0 {
            return Some(arguments);
        }
        let random = &mut self.generator.random;
        let (at, other) = (random.below(count) as usize, random.below(count) as usize);
        match random.below(20) {
            0..=4 => (),
            5..=9 => arguments = self.generator.chosen(formals, count)?,
            10..=12 => arguments.swap(at, other),
            13 | 14 => arguments.rotate_left(1),
            15..=17 => arguments[at] = arguments[other],
            _ if formals.is_some() => arguments = self.generator.chosen(formals, count)?,
            _ => arguments[at] = [random.below(self.generator.parts.quantum.len() as u64), 0],
        }
        Some(arguments).filter(|arguments| self.fit(formals, gate, arguments))
    }

    /// Whether a call may have these arguments. Those that would be refused as overlapping rarely may.
    fn fit(&mut self, formals: Option<u64>, gate: u64, arguments: &[Argument]) -> bool {
        let may_overlap = !self.gates[gate as usize].strict || self.generator.random.percent(8);
        (may_overlap || !overlap(arguments)) && self.rounds(formals, arguments).is_some()
    }

    /// The rounds of a call, if all sizes other than 1 are equal.
    fn rounds(&self, formals: Option<u64>, arguments: &[Argument]) -> Option<u64> {
        let size = |argument: &Argument| match argument {
            [register, 0] if formals.is_none() => self.generator.parts.quantum[*register as usize],
            _ => 1,
        };
        let rounds = arguments.iter().map(size).max().unwrap_or(0);
        arguments.iter().all(|argument| [1, rounds].contains(&size(argument))).then_some(rounds)
    }

    /// A call of one of these gates: two in three are an earlier one made again.
    fn call(&mut self, scope: &mut Scope, gates: &[u64]) -> Option<[u64; 5]> {
        let earlier = scope.calls.len() as u64;
        let call = if earlier > 0 && self.generator.random.percent(67) {
            let number = self.generator.random.below(earlier);
            self.again(scope.formals, scope.calls[number as usize].clone())?
        } else if gates.is_empty() {
            return None;
        } else {
            // Often one of the last, so that calls nest.
            let first = if self.generator.random.percent(60) { gates.len().saturating_sub(3) } else { 0 };
            let gate = self.generator.random.of(&gates[first..]);
            self.new_call(scope.formals, gate)?
        };
        let rounds = self.rounds(scope.formals, &call.arguments)?;
        let known = self.gates[call.gate as usize];
        if !scope.takes(Known { entries: known.entries + 1, ..known }, rounds) {
            return None;
        }
        let mut first = self.generator.parts.parameters.len() as u64;
        self.generator.parts.parameters.extend(&call.parameters);
        if call.parameters.is_empty() {
            first = self.generator.random.below(first + 1);
        }
        let statement = [3, call.gate, first, self.generator.placed(&call.arguments), 0];
        scope.calls.push(call);
        Some(statement)
    }

    // ---- gates and main

    fn u(&mut self, formals: u64) -> Option<[u64; 5]> {
        let arguments = self.generator.chosen(Some(formals), 1)?;
        let angles = [self.angle(), self.angle(), self.angle()];
        Some([1, angles[0], angles[1], angles[2], self.generator.placed(&arguments)])
    }

    fn body_statement(&mut self, scope: &mut Scope, gates: &[u64]) -> Option<[u64; 5]> {
        let formals = scope.formals?;
        let record = |words, strict| Known { words, entries: 0, strict };
        match self.generator.random.below(20) {
            0..=3 => self.u(formals).filter(|_| scope.takes(record(14, false), 1)),
            4..=7 if formals > 1 => self.generator.cx(Some(formals)).filter(|_| scope.takes(record(3, true), 1)),
            8..=10 => self.generator.barrier(Some(formals)).filter(|_| scope.takes(record(6, false), 1)),
            _ => self.call(scope, gates),
        }
    }

    /// The statements of a body. One body in six is silent: it has no statements, or calls of silent gates. Of the others
    /// half begin with a call of one of the last gates, so that calls nest.
    fn statements(&mut self, scope: &mut Scope) -> Vec<[u64; 5]> {
        let mut gates: Vec<u64> = (0..self.gates.len() as u64).collect();
        if self.generator.random.percent(16) {
            gates.retain(|gate| self.gates[*gate as usize].words == 0);
            return (0..self.generator.random.below(4)).filter_map(|_| self.call(scope, &gates)).collect();
        }
        let last = gates.len().saturating_sub(2);
        let first = if self.generator.random.percent(50) { self.call(scope, &gates[last..]) } else { None };
        let mut statements = Vec::from_iter(first);
        for _ in 0..self.generator.random.within(1, 5) {
            statements.extend(self.body_statement(scope, &gates));
        }
        statements
    }

    fn gate(&mut self) {
        let random = &mut self.generator.random;
        let parameters = match random.below(30) {
            0 => random.within(4, 16),
            _ => random.of(&[0, 0, 0, 1, 1, 2, 3]),
        };
        let arguments = match random.below(30) {
            0 | 1 => random.within(5, 16),
            2 => 0,
            _ => random.of(&[1, 1, 2, 2, 2, 3, 3, 4]),
        };
        self.generator.variables = parameters;
        let (body, known) = match self.generator.random.below(100) {
            0..=11 => (None, Known { words: 4 + 4 * parameters + arguments, entries: 0, strict: arguments > 1 }),
            12..=19 => self.shared_body(parameters, arguments),
            _ => self.new_body(arguments),
        };
        self.generator.variables = 0;
        self.generator.parts.gates.push(Gate { parameters, arguments, body });
        self.gates.push(known);
    }

    fn new_body(&mut self, arguments: u64) -> (Option<(u64, u64)>, Known) {
        let mut scope = Scope::new(Some(arguments));
        let statements = self.statements(&mut scope);
        (Some(self.generator.further(&statements)), scope.known)
    }

    /// The body of an earlier gate that has as many parameters and arguments, or a new one.
    fn shared_body(&mut self, parameters: u64, arguments: u64) -> (Option<(u64, u64)>, Known) {
        let gates = &self.generator.parts.gates;
        let alike = |gate: &Gate| gate.parameters == parameters && gate.arguments == arguments && gate.body.is_some();
        match gates.iter().rposition(alike) {
            Some(earlier) => (gates[earlier].body, self.gates[earlier]),
            None => self.new_body(arguments),
        }
    }

    /// Up to nine gates that call the two below them, one or both and some again. They have as many parameters and
    /// arguments; four times in ten the lowest has no statements.
    fn ladder(&mut self) {
        let random = &mut self.generator.random;
        let (parameters, arguments) = (random.below(3), random.within(1, 3));
        for number in 0..random.within(4, 9) {
            self.generator.variables = parameters;
            let mut scope = Scope::new(Some(arguments));
            let gates: Vec<u64> = (number.saturating_sub(2)..number).collect();
            let calls = if number > 0 { self.generator.random.within(1, 3) } else { 0 };
            let mut statements: Vec<_> = (0..calls).filter_map(|_| self.call(&mut scope, &gates)).collect();
            if self.generator.random.percent(if number == 0 { 60 } else { 15 }) {
                statements.extend(self.body_statement(&mut scope, &gates));
            }
            let body = Some(self.generator.further(&statements));
            self.generator.variables = 0;
            self.generator.parts.gates.push(Gate { parameters, arguments, body });
            self.gates.push(scope.known);
        }
    }

    /// An if with a call, if there is a classical register.
    fn conditional(&mut self, scope: &mut Scope, gates: &[u64]) -> Option<[u64; 5]> {
        let registers = self.generator.parts.classical.len() as u64;
        if registers == 0 {
            return None;
        }
        let inner = self.call(scope, gates)?;
        self.generator.parts.further.push(inner);
        let register = self.generator.random.below(registers);
        Some([7, register, self.generator.random.below(8), self.generator.parts.further.len() as u64 - 1, 0])
    }

    /// Three statements in four are calls. With many gates there may be many.
    fn main(&mut self, conditionals: bool) {
        let mut scope = Scope::new(None);
        let gates: Vec<u64> = (0..self.gates.len() as u64).collect();
        let most = if gates.len() > 16 { 60 } else { 16 };
        for _ in 0..self.generator.random.within(3, most) {
            let statement = match self.generator.random.below(if conditionals { 24 } else { 20 }) {
                0 => self.generator.u(None),
                1 => self.generator.cx(None),
                2 => self.generator.barrier(None),
                3 => self.generator.measure(),
                4 => self.generator.reset(),
                5..=19 => self.call(&mut scope, &gates),
                _ => self.conditional(&mut scope, &gates),
            };
            self.generator.parts.main.extend(statement);
        }
    }
}

/// Whether two arguments have a qubit in common, in main in some round.
fn overlap(arguments: &[Argument]) -> bool {
    let common =
        |one: &Argument, other: &Argument| one[0] == other[0] && (one[1] == 0 || other[1] == 0 || one[1] == other[1]);
    (0..arguments.len()).any(|at| arguments[..at].iter().any(|other| common(&arguments[at], other)))
}
