//! A stand-in for the parts of `num` that value.rs uses, by document 01's section on fractions.
//!
//! A fraction is n/d in lowest terms, d from 1 to 2^63-1, n from -(2^63-1) to 2^63-1. Every operation works
//! in i128, where nothing here can overflow, and tests the range as document 01 says.
#![no_std]

use core::fmt;
use core::ops::{AddAssign, Mul};
use integer::gcd;
use traits::{CheckedAdd, CheckedMul};

#[cfg(not(feature = "machine"))]
mod exact;
#[cfg(feature = "machine")]
mod machine;

const LIMIT: i128 = i64::MAX as i128;

fn in_range(number: i128) -> Option<i64> {
    (-LIMIT..=LIMIT).contains(&number).then_some(number as i64)
}

#[derive(Debug, Copy, Clone, PartialEq, Eq)]
pub struct Rational64 {
    numer: i64,
    denom: i64,
}

impl Rational64 {
    pub const fn new_raw(numer: i64, denom: i64) -> Rational64 {
        Rational64 { numer, denom }
    }

    pub fn new(numer: i64, denom: i64) -> Rational64 {
        Rational64::reduced(numer as i128, denom as i128).expect("a fraction")
    }

    pub fn numer(&self) -> &i64 {
        &self.numer
    }

    pub fn denom(&self) -> &i64 {
        &self.denom
    }

    /// A fraction in lowest terms, if it is in the range.
    fn reduced(numer: i128, denom: i128) -> Option<Rational64> {
        if denom == 0 {
            return None;
        }
        let common = gcd(numer.unsigned_abs(), denom.unsigned_abs()) as i128;
        let common = if denom < 0 { -common } else { common };
        Some(Rational64 { numer: in_range(numer / common)?, denom: in_range(denom / common)? })
    }

    /// The part after the whole part, which goes toward zero.
    pub fn fract(&self) -> Rational64 {
        Rational64::new(self.numer % self.denom, self.denom)
    }

    pub fn recip(&self) -> Rational64 {
        Rational64::new(self.denom, self.numer)
    }

    /// "The exact value of a finite f32, reduced; it fails exactly for infinities, NaN and values outside the
    /// range."
    pub fn approximate_float(value: f32) -> Option<Rational64> {
        if !value.is_finite() {
            return None;
        }
        let bits = value.to_bits();
        let (field, fraction) = (bits >> 23 & 0xFF, bits & 0x7F_FFFF);
        let mantissa = (if field == 0 { fraction } else { fraction | 0x80_0000 }) as i128;
        if mantissa == 0 {
            return Some(Rational64::new_raw(0, 1));
        }
        // The value is an odd number times 2^exponent.
        let odd = mantissa >> mantissa.trailing_zeros();
        let exponent = field.max(1) as i32 - 150 + mantissa.trailing_zeros() as i32;
        let signed = if bits >> 31 == 1 { -odd } else { odd };
        match exponent {
            0..=63 => Rational64::reduced(signed << exponent, 1),
            -63..=-1 => Rational64::reduced(signed, 1 << -exponent),
            _ => None,
        }
    }
}

impl From<i64> for Rational64 {
    fn from(whole: i64) -> Rational64 {
        Rational64::new_raw(whole, 1)
    }
}

// The operators that the source does not test for overflow: they tell of it, and go on with no fraction.

impl Mul<i64> for Rational64 {
    type Output = Rational64;

    fn mul(self, other: i64) -> Rational64 {
        self.checked_mul(&other.into()).unwrap_or_else(watch::overflowed)
    }
}

impl AddAssign<i64> for Rational64 {
    fn add_assign(&mut self, other: i64) {
        *self = self.checked_add(&other.into()).unwrap_or_else(watch::overflowed)
    }
}

impl fmt::Display for Rational64 {
    fn fmt(&self, f: &mut fmt::Formatter) -> fmt::Result {
        write!(f, "{}/{}", self.numer, self.denom)
    }
}

/// Signs, and the functions of floats: this trait is in scope where value.rs calls them.
pub trait Signed: Sized {
    fn is_negative(&self) -> bool;

    fn sin(self) -> Self {
        unreachable!()
    }
    fn exp(self) -> Self {
        unreachable!()
    }
    fn ln(self) -> Self {
        unreachable!()
    }
    fn sqrt(self) -> Self {
        unreachable!()
    }
    fn powf(self, _: Self) -> Self {
        unreachable!()
    }
}

impl Signed for Rational64 {
    fn is_negative(&self) -> bool {
        self.numer < 0
    }
}

impl Signed for f32 {
    fn is_negative(&self) -> bool {
        *self < 0.0
    }

    fn sin(self) -> f32 {
        watch::float_function()
    }
    fn exp(self) -> f32 {
        watch::float_function()
    }
    fn ln(self) -> f32 {
        watch::float_function()
    }
    fn sqrt(self) -> f32 {
        watch::float_function()
    }
    fn powf(self, _: f32) -> f32 {
        watch::float_function()
    }
}

/// What the source does and does not tell.
///
/// A function of floats gives a NaN whose bits are a mark. The source makes a fraction of every such result at
/// once, which fails, so that its own refusal carries the mark, at its own place and with its own backtrace.
pub mod watch {
    use super::Rational64;
    use core::sync::atomic::{AtomicBool, Ordering::Relaxed};

    /// A function of floats was called.
    pub const FLOAT_FUNCTION: u32 = 0x7FC0_0013;
    /// It was called after an overflow that the source does not test.
    pub const UNTESTED_OVERFLOW: u32 = 0x7FC0_0011;

    static OVERFLOWED: AtomicBool = AtomicBool::new(false);

    pub(super) fn overflowed() -> Rational64 {
        OVERFLOWED.store(true, Relaxed);
        Rational64::new_raw(1, 0)
    }

    /// Whether there was such an overflow since this was last asked.
    pub fn take_overflowed() -> bool {
        OVERFLOWED.swap(false, Relaxed)
    }

    pub(super) fn float_function() -> f32 {
        f32::from_bits(if take_overflowed() { UNTESTED_OVERFLOW } else { FLOAT_FUNCTION })
    }
}

pub mod integer {
    pub fn gcd(a: u128, b: u128) -> u128 {
        let (mut a, mut b) = (a, b);
        while b != 0 {
            (a, b) = (b, a % b);
        }
        a
    }

    pub trait Roots {
        /// The largest whole number whose n-th power is at most this.
        fn nth_root(&self, n: u32) -> Self;
    }

    impl Roots for u64 {
        fn nth_root(&self, n: u32) -> u64 {
            let (mut low, mut high) = (0, 1u128 << 64); // low^n <= self < high^n
            while high - low > 1 {
                let middle = (low + high) / 2;
                match (middle as u64).checked_pow(n) {
                    Some(power) if power <= *self => low = middle,
                    _ => high = middle,
                }
            }
            low as u64
        }
    }
}

pub mod traits {
    use crate::Rational64;

    pub trait CheckedAdd: Sized {
        fn checked_add(&self, other: &Self) -> Option<Self>;
    }
    pub trait CheckedSub: Sized {
        fn checked_sub(&self, other: &Self) -> Option<Self>;
    }
    pub trait CheckedMul: Sized {
        fn checked_mul(&self, other: &Self) -> Option<Self>;
    }
    pub trait CheckedDiv: Sized {
        fn checked_div(&self, other: &Self) -> Option<Self>;
    }

    /// The power of a fraction; 0^0 is 1.
    pub fn checked_pow(base: Rational64, exponent: usize) -> Option<Rational64> {
        let sign = if base.numer < 0 && exponent % 2 == 1 { -1 } else { 1 };
        let numer = whole_power(base.numer.unsigned_abs(), exponent)?;
        let denom = whole_power(base.denom.unsigned_abs(), exponent)?;
        Rational64::reduced(sign * numer, denom)
    }

    fn whole_power(base: u64, exponent: usize) -> Option<i128> {
        if exponent == 0 {
            return Some(1);
        }
        if base < 2 {
            return Some(base as i128);
        }
        (base as i128).checked_pow(u32::try_from(exponent).ok()?)
    }
}
