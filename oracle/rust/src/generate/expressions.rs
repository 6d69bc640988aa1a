//! Expressions: patterns of each operation near its edges, trees of anything, and plain ones.
use super::Generator;
use crate::random::Random;

/// What is known of an expression entry.
#[derive(Copy, Clone)]
pub(super) struct Known {
    levels: u32,
    nodes: u64,
    /// One more than the largest variable in it.
    variables: u64,
}

const MOST_LEVELS: u32 = 32;
const MOST_NODES: u64 = 4000;

const PI: u64 = 0;
const REAL: u64 = 1;
const INTEGER: u64 = 2;
const VARIABLE: u64 = 3;
pub(super) const PLUS: u64 = 4;
pub(super) const MINUS: u64 = 5;
pub(super) const TIMES: u64 = 6;
pub(super) const DIVIDE: u64 = 7;
const POWER: u64 = 8;
pub(super) const NEGATE: u64 = 9;
const SIN: u64 = 10;
const COS: u64 = 11;
const TAN: u64 = 12;
const EXP: u64 = 13;
const LN: u64 = 14;
const SQRT: u64 = 15;

const LIMIT: u64 = i64::MAX as u64;

impl Generator {
    fn entry(&mut self, kind: u64, first: u64, second: u64) -> u64 {
        let leaf = Known { levels: 1, nodes: 1, variables: 0 };
        let known = match kind {
            VARIABLE => Known { variables: first + 1, ..leaf },
            PI..=INTEGER => leaf,
            _ => {
                let one = self.known[first as usize];
                let other = if kind <= POWER {
                    self.known[second as usize]
                } else {
                    Known { levels: 0, nodes: 0, variables: 0 }
                };
                Known {
                    levels: 1 + one.levels.max(other.levels),
                    nodes: 1 + one.nodes + other.nodes,
                    variables: one.variables.max(other.variables),
                }
            }
        };
        self.parts.expressions.push([kind, first, second]);
        self.known.push(known);
        self.known.len() as u64 - 1
    }

    pub(super) fn integer(&mut self, number: u64) -> u64 {
        self.entry(INTEGER, number, 0)
    }

    pub(super) fn pi(&mut self) -> u64 {
        self.entry(PI, 0, 0)
    }

    pub(super) fn binary(&mut self, kind: u64, first: u64, second: u64) -> u64 {
        self.entry(kind, first, second)
    }

    pub(super) fn unary(&mut self, kind: u64, operand: u64) -> u64 {
        self.entry(kind, operand, 0)
    }

    pub(super) fn ratio(&mut self, n: u64, d: u64) -> u64 {
        let (n, d) = (self.integer(n), self.integer(d));
        self.binary(DIVIDE, n, d)
    }

    fn maybe_negated(&mut self, expression: u64) -> u64 {
        if self.random.percent(40) {
            self.unary(NEGATE, expression)
        } else {
            expression
        }
    }

    pub(super) fn times_pi(&mut self, expression: u64) -> u64 {
        let pi = self.pi();
        self.binary(TIMES, expression, pi)
    }

    /// A number of any size, mostly near an edge.
    fn number(&mut self) -> u64 {
        let random = &mut self.random;
        let near = |random: &mut Random, number: u64| number.wrapping_add(random.below(5)).wrapping_sub(2).min(LIMIT);
        match random.below(12) {
            0..=3 => random.below(13),
            4 | 5 => {
                let bit = random.below(63);
                near(random, 1 << bit)
            }
            6 => LIMIT - random.below(4),
            7 | 8 => random.word() >> random.within(1, 63),
            9 => near(random, 3_037_000_500), // whose square is next to 2^63
            10 => near(random, LIMIT / 3),
            _ if random.percent(8) => random.word() | 1 << 63,
            _ => random.of(&[7, 30, 64, 81, 1024, 46_656, 65_537, 1_000_000_007, 6_074_001_000, 1 << 62]),
        }
    }

    fn fraction(&mut self) -> u64 {
        let n = self.number();
        let fraction = if self.random.percent(70) {
            let d = self.number();
            let d = if self.random.percent(95) { d.max(1) } else { d };
            self.ratio(n, d)
        } else {
            self.integer(n)
        };
        self.maybe_negated(fraction)
    }

    /// f32 bits: plain ones, any, or with an exponent around the fractions' range.
    fn float(&mut self) -> u64 {
        let random = &mut self.random;
        let sign = random.below(2) << 31;
        match random.below(6) {
            0 | 1 => ((random.below(64) as f32 / random.of(&[1.0, 2.0, 4.0, 8.0, 3.0, 10.0])).to_bits() as u64) | sign,
            2 => random.of(&[
                0,
                1 << 31,
                0x7F80_0000,
                0xFF80_0000,
                0x7FC0_0000,
                0x7FC0_0013,
                0x7F80_0001,
                0x4049_0FDB,
                1,
                0x7F_FFFF,
                0x7F7F_FFFF,
            ]),
            3 => random.word() >> 32,
            _ => {
                let exponent = random.within(127 - 70, 127 + 66) << 23;
                let mantissa = if random.percent(30) {
                    0
                } else {
                    (random.word() & 0x7F_FFFF) >> random.below(24) << random.below(8) & 0x7F_FFFF
                };
                sign | exponent | mantissa
            }
        }
    }

    fn real(&mut self) -> u64 {
        let bits = self.float();
        self.entry(REAL, bits, 0)
    }

    /// a + b·pi, either part perhaps missing.
    fn angle(&mut self) -> u64 {
        match self.random.below(5) {
            0 => self.fraction(),
            1 | 2 => {
                let b = self.fraction();
                self.times_pi(b)
            }
            3 => self.real(),
            _ => {
                let (a, b) = (self.fraction(), self.fraction());
                let b = self.times_pi(b);
                let kind = self.random.of(&[PLUS, MINUS]);
                self.binary(kind, a, b)
            }
        }
    }

    /// A sum of fractions whose steps come near the range's end.
    fn near_sum(&mut self) -> u64 {
        let common = self.random.word() >> self.random.within(20, 63) | 1;
        let left = (self.random.word() >> self.random.within(30, 63) | 1).min(LIMIT / common);
        let right = (self.random.word() >> self.random.within(30, 63) | 1).min(LIMIT / common);
        let (b, d) = (common * left, common * right);
        // Numerators that bring p, q or s next to the limit.
        let toward = |random: &mut Random, factor: u64| {
            (LIMIT / factor).saturating_add(random.below(5)).saturating_sub(2).clamp(1, LIMIT)
        };
        let a = if self.random.percent(50) { toward(&mut self.random, right) } else { self.number().min(LIMIT) };
        let c = if self.random.percent(50) { toward(&mut self.random, left) } else { self.number().min(LIMIT) };
        let (one, other) = (self.ratio(a, b), self.ratio(c, d));
        let (one, other) = (self.maybe_negated(one), self.maybe_negated(other));
        let kind = self.random.of(&[PLUS, MINUS]);
        let sum = self.binary(kind, one, other);
        if self.random.percent(20) {
            self.times_pi(sum)
        } else {
            sum
        }
    }

    /// A sum that leaves the range on the way and comes back when it is reduced.
    fn reducing_sum(&mut self) -> u64 {
        if self.random.percent(50) {
            // (2^63-1 - i)/d + (2^63-1 - j)/d, where d divides the sum.
            let d = self.random.within(2, 9);
            let one = LIMIT - self.random.below(50);
            let other = LIMIT - self.random.below(20);
            let sum = one as u128 + other as u128;
            let other = other - (sum % d as u128) as u64;
            let (one, other) = (self.ratio(one, d), self.ratio(other, d));
            return self.binary(PLUS, one, other);
        }
        // a/(gx) + c/(gy), where g divides ay + cx.
        let g = self.random.of(&[3, 7, 31, 127, 8191, 65_537, 131_071, 524_287, 6_700_417, 2_147_483_647]);
        let x = self.random.word() >> self.random.within(34, 44) | 1;
        let y = self.random.word() >> self.random.within(34, 44) | 1;
        let (a, inverse) = (self.random.within(1, 9), inverse(x % g, g));
        let c = (g - a * (y % g) % g) as u128 * inverse as u128 % g as u128;
        let (one, other) =
            (self.ratio(a, g.saturating_mul(x).min(LIMIT)), self.ratio(c as u64, g.saturating_mul(y).min(LIMIT)));
        self.binary(PLUS, one, other)
    }

    fn trigonometry(&mut self) -> u64 {
        let d = match self.random.below(8) {
            0..=5 => self.random.of(&[1, 2, 3, 4, 6, 6, 12]),
            // Where adding 2 comes to overflow.
            6 => {
                let bits = self.random.within(7, 62);
                ((1 << 62) - 64 + self.random.below(1 << bits) | 1).min(LIMIT)
            }
            _ => self.number().clamp(1, LIMIT),
        };
        let n = match self.random.below(4) {
            0 | 1 if d > 12 => self.random.below(40) * 2,
            2 if d > 12 => self.random.below(LIMIT / 2) * 2,
            0..=2 => self.random.below(40),
            _ => self.number(),
        };
        let ratio = self.ratio(n, d);
        let ratio = self.maybe_negated(ratio);
        let angle = self.times_pi(ratio);
        let kind = self.random.of(&[SIN, COS, TAN]);
        self.unary(kind, angle)
    }

    /// A power, mostly one with an exact root.
    fn power(&mut self) -> u64 {
        let root = self.random.of(&[1, 1, 2, 2, 3, 3, 4, 5, 7, 62, 63, 64, 1 << 32, (1 << 32) - 1]);
        let whole = |random: &mut Random| {
            let most = match root {
                1 => 2_000_000,
                2 => 3_037_000_499,
                3 => 2_097_151,
                4 => 55_108,
                5 => 6_208,
                7 => 511,
                _ => 3,
            };
            let base = if random.percent(70) { random.below(12) } else { random.below(most + 1) };
            let power = base.checked_pow(root.min(64) as u32).unwrap_or(base);
            if random.percent(15) {
                power.wrapping_add(random.below(3)).wrapping_sub(1).min(LIMIT)
            } else {
                power
            }
        };
        let (n, d) = (whole(&mut self.random), whole(&mut self.random).max(1));
        let base = match self.random.below(6) {
            0 => self.angle(),
            1..=3 => self.integer(n),
            _ => self.ratio(n, d),
        };
        let base = if self.random.percent(20) { self.unary(NEGATE, base) } else { base };
        let n = match self.random.below(8) {
            0 => self.number(),
            _ => self.random.below(5),
        };
        let exponent = match self.random.below(12) {
            0 => self.angle(),
            1 => self.real(),
            _ => self.ratio(n, root),
        };
        let exponent = if self.random.percent(30) { self.unary(NEGATE, exponent) } else { exponent };
        self.binary(POWER, base, exponent)
    }

    fn square_root(&mut self) -> u64 {
        let square = |random: &mut Random| {
            let base = if random.percent(60) { random.below(30) } else { random.below(3_037_000_500) };
            (base * base).saturating_sub(random.percent(15) as u64)
        };
        let (n, d) = (square(&mut self.random), square(&mut self.random));
        let operand = if self.random.percent(15) { self.angle() } else { self.ratio(n, d.max(1)) };
        let operand = if self.random.percent(10) { self.unary(NEGATE, operand) } else { operand };
        self.unary(SQRT, operand)
    }

    /// k·p - m·pi, where p is the f32 next to pi and m next to k: as an f32 it is zero, or nearly.
    fn vanishing(&mut self) -> u64 {
        let k = self.random.of(&[1, 1, 2, 3, 4, 8]);
        let near_pi = self.entry(REAL, 0x4049_0FDB, 0);
        let factor = self.integer(k);
        let a = self.binary(TIMES, near_pi, factor);
        let part = 1 << self.random.within(20, 50);
        let m = match self.random.below(3) {
            0 => self.integer(k),
            _ => {
                let more = self.random.below(3);
                self.ratio(k * part + more, part)
            }
        };
        let b = self.times_pi(m);
        if self.random.percent(50) {
            self.binary(MINUS, a, b)
        } else {
            self.binary(MINUS, b, a)
        }
    }

    /// A quotient of angles, often with a common ratio.
    fn quotient(&mut self) -> u64 {
        if self.random.percent(15) {
            let one = if self.random.percent(50) { self.vanishing() } else { self.angle() };
            let other = self.vanishing();
            return self.binary(DIVIDE, one, other);
        }
        if self.random.percent(50) {
            let (one, other) = (self.angle(), self.angle());
            return self.binary(DIVIDE, one, other);
        }
        let (a, b) = (self.fraction(), self.fraction());
        let b = self.times_pi(b);
        let divisor = self.binary(PLUS, a, b);
        let factor = self.fraction();
        let dividend = self.binary(TIMES, divisor, factor);
        let dividend = match self.random.below(4) {
            0 => {
                let more = self.fraction();
                self.binary(PLUS, dividend, more)
            }
            _ => dividend,
        };
        self.binary(DIVIDE, dividend, divisor)
    }

    /// Something divided by zero, or nearly so.
    fn zero_division(&mut self) -> u64 {
        let n = self.random.within(0, 4);
        match self.random.below(4) {
            0 => {
                let angle = self.angle();
                let zero = self.binary(MINUS, angle, angle);
                let one = self.angle();
                self.binary(DIVIDE, one, zero)
            }
            1 => {
                let (base, exponent) = (self.integer(n / 3), self.ratio(n, 2));
                let exponent = self.maybe_negated(exponent);
                self.binary(POWER, base, exponent)
            }
            2 => {
                let half = self.ratio(2 * n + 1, 2);
                let half = self.maybe_negated(half);
                let angle = self.times_pi(half);
                self.unary(TAN, angle)
            }
            _ => self.ratio(n, 0),
        }
    }

    /// Two fractions or angles under one operation.
    fn operation(&mut self) -> u64 {
        let (one, other) = match self.random.below(3) {
            0 => (self.fraction(), self.fraction()),
            1 => (self.angle(), self.angle()),
            _ => (self.real(), self.real()),
        };
        let kind = self.random.within(PLUS, POWER);
        self.binary(kind, one, other)
    }

    /// A few levels of anything over leaves of any kind.
    fn wild_tree(&mut self, levels: u32) -> u64 {
        if levels == 0 || self.random.percent(20) {
            return match self.random.below(6) {
                0 if self.variables > 0 => self.variable(),
                0 | 1 => self.pi(),
                2 => self.real(),
                3 => self.angle(),
                _ => {
                    let number = if self.random.percent(70) { self.random.below(13) } else { self.number() };
                    self.integer(number)
                }
            };
        }
        match self.random.below(12) {
            0 => self.pattern(),
            1..=3 => {
                let operand = self.wild_tree(levels - 1);
                let kind = self.random.of(&[NEGATE, NEGATE, NEGATE, NEGATE, SIN, COS, TAN, SQRT, EXP, LN]);
                self.unary(kind, operand)
            }
            _ => {
                let (one, other) = (self.wild_tree(levels - 1), self.wild_tree(levels - 1));
                let kind = if self.random.percent(80) { self.random.within(PLUS, DIVIDE) } else { POWER };
                self.binary(kind, one, other)
            }
        }
    }

    /// Up to the most levels, by small steps.
    fn chain(&mut self) -> u64 {
        let levels = self.random.within(5, 31);
        let mut expression = if self.variables > 0 { self.variable() } else { self.pi() };
        for _ in 0..levels {
            let step = self.random.within(1, 3);
            let step = self.integer(step);
            let kind = self.random.of(&[PLUS, MINUS, TIMES, DIVIDE, NEGATE]);
            expression =
                if kind == NEGATE { self.unary(NEGATE, expression) } else { self.binary(kind, expression, step) };
        }
        expression
    }

    fn pattern(&mut self) -> u64 {
        match self.random.below(20) {
            0 | 1 => self.near_sum(),
            2 => self.reducing_sum(),
            3..=5 => self.trigonometry(),
            6..=8 => self.power(),
            9 => self.square_root(),
            10..=12 => self.quotient(),
            13..=15 => self.operation(),
            16 => self.zero_division(),
            17 => self.chain(),
            _ => self.angle(),
        }
    }

    pub(super) fn variable(&mut self) -> u64 {
        let variable = self.random.below(self.variables);
        self.numbered_variable(variable)
    }

    pub(super) fn numbered_variable(&mut self, number: u64) -> u64 {
        self.entry(VARIABLE, number, 0)
    }

    fn plain_leaf(&mut self) -> u64 {
        match self.random.below(8) {
            0..=2 if self.variables > 0 => self.variable(),
            0 | 3 => self.pi(),
            1 | 4 => {
                let (n, d) = (self.random.below(9), self.random.within(1, 8));
                self.ratio(n, d)
            }
            5 => {
                let bits = (self.random.below(40) as f32 / 8.0).to_bits();
                self.entry(REAL, bits as u64, 0)
            }
            _ => {
                let number = self.random.below(9);
                self.integer(number)
            }
        }
    }

    /// An expression that mostly has a small exact value.
    fn plain_tree(&mut self, levels: u32) -> u64 {
        if levels == 0 || self.random.percent(30) {
            return self.plain_leaf();
        }
        match self.random.below(10) {
            0..=4 => {
                let (one, other) = (self.plain_tree(levels - 1), self.plain_tree(levels - 1));
                let kind = self.random.of(&[PLUS, PLUS, MINUS]);
                self.binary(kind, one, other)
            }
            5 | 6 => {
                let one = self.plain_tree(levels - 1);
                let factor = self.random.within(1, 6);
                let factor = self.integer(factor);
                let kind = self.random.of(&[TIMES, DIVIDE]);
                self.binary(kind, one, factor)
            }
            7 => {
                let operand = self.plain_tree(levels - 1);
                self.unary(NEGATE, operand)
            }
            8 => {
                let (n, d) = (self.random.within(1, 40), self.random.of(&[2, 6]));
                let ratio = self.ratio(n, d);
                let angle = self.times_pi(ratio);
                let kind = self.random.of(&[SIN, COS]);
                self.unary(kind, angle)
            }
            _ => {
                let (base, exponent) = (self.random.below(6), self.random.below(4));
                let (base, exponent) = (self.integer(base), self.integer(exponent));
                self.binary(POWER, base, exponent)
            }
        }
    }

    /// An expression for a statement: one of the earlier, or a new one.
    pub(super) fn expression(&mut self) -> u64 {
        let earlier = self.known.len() as u64;
        if earlier > 0 && self.random.percent(15) {
            let number = self.random.below(earlier);
            if self.known[number as usize].variables <= self.variables {
                return number;
            }
        }
        let levels = self.random.below(4) as u32;
        if !self.random.percent(self.wild) {
            return self.plain_tree(levels);
        }
        let made =
            self.kept(
                |generator| {
                    if generator.random.percent(50) {
                        generator.pattern()
                    } else {
                        generator.wild_tree(levels)
                    }
                },
            );
        made.unwrap_or_else(|| self.plain_leaf())
    }

    /// Any expression at all, with no plain ones among them.
    pub(super) fn any_expression(&mut self) -> u64 {
        loop {
            let made = self.kept(|generator| match generator.random.below(10) {
                0..=6 => generator.pattern(),
                7 => generator.wild_tree(2),
                8 => generator.wild_tree(3),
                _ => generator.wild_tree(5),
            });
            if let Some(number) = made {
                return number;
            }
        }
    }

    /// What is made, unless it has too many levels or nodes.
    pub(super) fn kept(&mut self, make: impl FnOnce(&mut Generator) -> u64) -> Option<u64> {
        let length = self.known.len();
        let number = make(self);
        let known = self.known[number as usize];
        if known.levels <= MOST_LEVELS && known.nodes <= MOST_NODES {
            return Some(number);
        }
        self.known.truncate(length);
        self.parts.expressions.truncate(length);
        None
    }
}

/// The number whose product with x leaves 1 by the prime g; 0 of 0.
fn inverse(x: u64, g: u64) -> u64 {
    let (mut power, mut base, mut exponent) = (1, x as u128, g - 2);
    while exponent > 0 {
        if exponent % 2 == 1 {
            power = power * base % g as u128;
        }
        base = base * base % g as u128;
        exponent /= 2;
    }
    power as u64
}
