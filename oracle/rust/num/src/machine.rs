//! The same in i64, with a gcd by halving, step by step as the published num works them out. For measuring times:
//! within the range the results are those of `exact`, and the times are those that the published crate would have.
use crate::traits::{CheckedAdd, CheckedDiv, CheckedMul, CheckedSub};
use crate::Rational64;

/// The gcd by halving and differences.
fn gcd(a: i64, b: i64) -> i64 {
    let (mut a, mut b) = (a.unsigned_abs(), b.unsigned_abs());
    if a == 0 || b == 0 {
        return (a | b) as i64;
    }
    let shift = (a | b).trailing_zeros();
    a >>= a.trailing_zeros();
    b >>= b.trailing_zeros();
    while a != b {
        if a > b {
            a -= b;
            a >>= a.trailing_zeros();
        } else {
            b -= a;
            b >>= b.trailing_zeros();
        }
    }
    (a << shift) as i64
}

/// A fraction in lowest terms with a positive denominator.
fn fraction(numer: i64, denom: i64) -> Option<Rational64> {
    if denom == 0 {
        return None;
    }
    let common = gcd(numer, denom);
    let common = if denom < 0 { -common } else { common };
    Some(Rational64::new_raw(numer / common, denom / common))
}

fn sum(x: &Rational64, y: &Rational64, join: fn(i64, i64) -> Option<i64>) -> Option<Rational64> {
    let common = (x.denom / gcd(x.denom, y.denom)).checked_mul(y.denom)?;
    let left = (common / x.denom).checked_mul(x.numer)?;
    let right = (common / y.denom).checked_mul(y.numer)?;
    fraction(join(left, right)?, common)
}

impl CheckedAdd for Rational64 {
    fn checked_add(&self, other: &Rational64) -> Option<Rational64> {
        sum(self, other, i64::checked_add)
    }
}

impl CheckedSub for Rational64 {
    fn checked_sub(&self, other: &Rational64) -> Option<Rational64> {
        sum(self, other, i64::checked_sub)
    }
}

impl CheckedMul for Rational64 {
    fn checked_mul(&self, other: &Rational64) -> Option<Rational64> {
        let (first, second) = (gcd(self.numer, other.denom), gcd(self.denom, other.numer));
        fraction(
            (self.numer / first).checked_mul(other.numer / second)?,
            (self.denom / second).checked_mul(other.denom / first)?,
        )
    }
}

impl CheckedDiv for Rational64 {
    fn checked_div(&self, other: &Rational64) -> Option<Rational64> {
        if other.numer == 0 {
            return None;
        }
        let (first, second) = (gcd(self.numer, other.numer), gcd(self.denom, other.denom));
        fraction(
            (self.numer / first).checked_mul(other.denom / second)?,
            (self.denom / second).checked_mul(other.numer / first)?,
        )
    }
}
