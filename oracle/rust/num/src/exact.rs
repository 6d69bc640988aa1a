//! Sum, difference, product and quotient by document 01's section on fractions.
use crate::integer::gcd;
use crate::traits::{CheckedAdd, CheckedDiv, CheckedMul, CheckedSub};
use crate::{in_range, Rational64};

impl Rational64 {
    /// "g = gcd(b,d), l = b/g·d, p = l/b·a, q = l/d·c, s = p+q, then s/l reduced. Overflow exactly if l, p, q
    /// or s leaves the range."
    fn sum(self, c: i128, d: i128) -> Option<Rational64> {
        let (a, b) = (self.numer as i128, self.denom as i128);
        let g = gcd(b as u128, d as u128) as i128;
        let l = in_range(b / g * d)? as i128;
        let p = in_range(l / b * a)? as i128;
        let q = in_range(l / d * c)? as i128;
        let s = in_range(p + q)? as i128;
        Rational64::reduced(s, l)
    }
}

impl CheckedAdd for Rational64 {
    fn checked_add(&self, other: &Rational64) -> Option<Rational64> {
        self.sum(other.numer as i128, other.denom as i128)
    }
}

impl CheckedSub for Rational64 {
    fn checked_sub(&self, other: &Rational64) -> Option<Rational64> {
        self.sum(-(other.numer as i128), other.denom as i128)
    }
}

// "Product, quotient, power: exact, overflow exactly if the reduced result leaves the range."

impl CheckedMul for Rational64 {
    fn checked_mul(&self, other: &Rational64) -> Option<Rational64> {
        Rational64::reduced(self.numer as i128 * other.numer as i128, self.denom as i128 * other.denom as i128)
    }
}

impl CheckedDiv for Rational64 {
    fn checked_div(&self, other: &Rational64) -> Option<Rational64> {
        Rational64::reduced(self.numer as i128 * other.denom as i128, self.denom as i128 * other.numer as i128)
    }
}
