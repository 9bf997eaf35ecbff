//! The powers by which parameters and words are chosen: worked out in whole numbers, or multiplied
//! in a fixed order, so that they are the same on every machine. The last bits of std's `exp`, `exp2`
//! and `powf` are the platform's, and those of `powi` the compiler's.

use crate::lean::half_to;

/// The natural logarithm of 2, as so many times 2^-128.
const LN_2: u128 = 0xb172_17f7_d1cf_79ab_c9e3_b398_03f2_f6af;

/// So many terms of a power of e are added up: 1 over the factorial of the next is below 2^-128.
const TERMS: u128 = 34;

/// A float from 0 to below 1 as so many times 2^-128, rounded down.
fn wide(fraction: f64) -> u128 {
    (fraction / half_to(128)) as u128
}

/// The float nearest to so many times 2^-128.
fn narrow(wide: u128) -> f64 {
    wide as f64 * half_to(128)
}

/// The product of two fractions, all three as so many times 2^-128; too low by at most 3 of these.
fn product(a: u128, b: u128) -> u128 {
    let (high, low) = (|n: u128| n >> 64, |n: u128| n & u128::from(u64::MAX));
    high(a) * high(b) + high(high(a) * low(b)) + high(low(a) * high(b))
}

/// e to the power -`z`, both as so many times 2^-128: 1 - z (1 - z/2 (1 - z/3 (..))).
fn e_to_minus_wide(z: u128) -> u128 {
    let one = u128::MAX;
    (1..=TERMS)
        .rev()
        .fold(one, |rest, n| one - product(z, rest) / n)
}

/// e to the power -`x`, for x from 0 to below 16.
pub fn e_to_minus(x: f64) -> f64 {
    let root = e_to_minus_wide(wide(x / 16.0));
    narrow((0..4).fold(root, |power, _| product(power, power)))
}

/// Two to the power -`x`, for x from 0 to below 2,000.
pub fn two_to_minus(x: f64) -> f64 {
    let whole = x as u64;
    let part = e_to_minus_wide(product(wide(x - whole as f64), LN_2));
    // In two steps: `half_to` has no power as low as the least float.
    narrow(part) * half_to(whole / 2) * half_to(whole - whole / 2)
}

/// `base` to the power `exponent`: the squares of `base` that its bits name, the lowest bit first.
pub fn power(base: f64, exponent: u64) -> f64 {
    let (mut power, mut square, mut left) = (1.0, base, exponent);
    while left > 0 {
        if left % 2 == 1 {
            power *= square;
        }
        square *= square;
        left /= 2;
    }
    power
}
