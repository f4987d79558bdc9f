//! Whole numbers of any length, for comparing squares of floats without rounding.

use std::cmp::Ordering;

/// Digits of 32 bits, the least first, none of them 0 at the end.
#[derive(Clone, Debug, PartialEq, Eq)]
pub struct Whole(Vec<u64>);

const DIGIT: u32 = 32;

impl Whole {
    fn of(mut digits: Vec<u64>) -> Whole {
        while digits.last() == Some(&0) {
            digits.pop();
        }
        Whole(digits)
    }

    /// Times 2^by.
    pub fn shifted(&self, by: u32) -> Whole {
        let mut digits = vec![0; (by / DIGIT) as usize];
        let mut carry = 0;
        for digit in self.0.iter().chain([&0]) {
            let wide = (digit << (by % DIGIT)) + carry;
            digits.push(wide & u64::from(u32::MAX));
            carry = wide >> DIGIT;
        }
        Whole::of(digits)
    }

    pub fn squared(&self) -> Whole {
        let mut digits = vec![0u64; 2 * self.0.len() + 1];
        for (i, a) in self.0.iter().enumerate() {
            let mut carry = 0;
            for (j, b) in self.0.iter().chain([&0]).enumerate() {
                let wide = u128::from(a * b) + u128::from(digits[i + j]) + carry;
                digits[i + j] = wide as u64 & u64::from(u32::MAX);
                carry = wide >> DIGIT;
            }
        }
        Whole::of(digits)
    }

    pub fn plus(&self, other: &Whole) -> Whole {
        let mut carry = 0;
        let digits = (0..=self.0.len().max(other.0.len())).map(|k| {
            let wide = self.digit(k) + other.digit(k) + carry;
            carry = wide >> DIGIT;
            wide & u64::from(u32::MAX)
        });
        Whole::of(digits.collect())
    }

    /// How far two numbers are apart.
    pub fn apart(&self, other: &Whole) -> Whole {
        let (more, less) = if self < other { (other, self) } else { (self, other) };
        let mut borrowed = 0;
        let digits = (0..more.0.len()).map(|k| {
            let taken = less.digit(k) + borrowed;
            borrowed = u64::from(more.digit(k) < taken);
            more.digit(k) + (borrowed << DIGIT) - taken
        });
        Whole::of(digits.collect())
    }

    fn digit(&self, k: usize) -> u64 {
        self.0.get(k).copied().unwrap_or(0)
    }

    /// Rounded, for telling it.
    pub fn near(&self) -> f64 {
        self.0.iter().rev().fold(0.0, |sum, digit| sum * 4_294_967_296.0 + *digit as f64)
    }
}

impl PartialOrd for Whole {
    fn partial_cmp(&self, other: &Whole) -> Option<Ordering> {
        let lengths = self.0.len().cmp(&other.0.len());
        Some(lengths.then_with(|| self.0.iter().rev().cmp(other.0.iter().rev())))
    }
}

/// The digits of a finite float, and the power of 2 that they count.
fn parts(x: f64) -> (u64, u32) {
    let bits = x.abs().to_bits();
    let (exponent, digits) = ((bits >> 52) as u32, bits & ((1 << 52) - 1));
    if exponent == 0 { (digits, 1) } else { (digits | 1 << 52, exponent) }
}

/// Magnitudes of finite floats, in units of a power of 2 that all of them are counted in.
pub fn magnitudes<const N: usize>(xs: [f64; N]) -> [Whole; N] {
    let parts = xs.map(parts);
    let used = parts.iter().filter(|(digits, _)| *digits > 0);
    let unit = used.map(|(_, exponent)| *exponent).min().unwrap_or(1);
    parts.map(|(digits, exponent)| {
        let low = digits & u64::from(u32::MAX);
        Whole::of(vec![low, digits >> DIGIT]).shifted(exponent.max(unit) - unit)
    })
}
