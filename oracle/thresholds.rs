//! Poisson cases: thresholds at and beside the ends of their range, and words that bring the
//! product to the threshold.

use crate::cases::Case;
use crate::chance::Chance;
use crate::fraction;
use crate::judge::Threshold;
use crate::lean::{self, beside, half_to, word_beside};
use crate::powers::{e_to_minus, two_to_minus};

/// The least threshold that is accepted on the other side.
pub const LEAST: f64 = 1.0 / 262_144.0;

/// Poisson draws are set up by Knuth's method below this lambda.
const MOST_LAMBDA: f64 = 12.0;

/// A case of either source of a threshold, with about `longest` words at most. `of_lambda` gives the
/// threshold of a lambda: the Rust's own set-up, or `worked_out`.
pub fn random_case(chance: &mut Chance, longest: usize, of_lambda: fn(f64) -> Threshold) -> Case {
    let threshold = if chance.one_in(2) {
        of_lambda(lambda(chance))
    } else {
        Threshold::handed(threshold_bits(chance))
    };
    let leaning = chance.one_in(2);
    let value = threshold.value();
    lean::case(chance, &threshold, |chance, seen| {
        if seen.len() >= longest {
            // A product of 0 ends every draw.
            0
        } else if leaning {
            leaning_word(chance, value, seen)
        } else {
            chance.word()
        }
    })
}

/// The threshold of a lambda, the same on every machine. The Rust's own is from the platform's exp.
pub fn worked_out(lambda: f64) -> Threshold {
    Threshold::handed(e_to_minus(lambda).to_bits())
}

/// A lambda above 0 and below 12: uniform, or close to either end.
pub fn lambda(chance: &mut Chance) -> f64 {
    let smallest = f64::from_bits(1);
    let last = beside(MOST_LAMBDA, -1);
    let halvings = 50.0 * chance.unit();
    match chance.below(4) {
        0 => two_to_minus(1_074.0 * chance.unit()),
        1 => MOST_LAMBDA - MOST_LAMBDA * two_to_minus(halvings),
        _ => MOST_LAMBDA * chance.unit(),
    }
    .clamp(smallest, last)
}

/// The lambdas that every run begins with: the ends of the range, and some beside them.
pub fn fixed_lambdas() -> Vec<f64> {
    let mut lambdas: Vec<f64> = (1..=8).map(|by| beside(MOST_LAMBDA, -by)).collect();
    lambdas.extend((1..=8).map(f64::from_bits));
    lambdas.extend((-2..=2).map(|by| beside(f64::MIN_POSITIVE, by)));
    lambdas.extend((1..=60).map(half_to));
    lambdas.extend((1..=11).map(f64::from));
    lambdas
}

/// The bits of a threshold to hand in; about one in seven is outside the range.
fn threshold_bits(chance: &mut Chance) -> u64 {
    let threshold = match chance.below(16) {
        0..=5 => e_to_minus(MOST_LAMBDA * chance.unit()),
        // These two are fractions of words, so that a first fraction can meet them.
        6 => fraction(chance.word()),
        7 => fraction(chance.word() >> chance.below(18)),
        8 | 9 => beside(LEAST, chance.step(3)),
        10 | 11 => beside(1.0, chance.step(3)),
        12 | 13 => beside(half_to(chance.below(20)), chance.step(2)),
        _ => return strange_bits(chance),
    };
    threshold.to_bits()
}

/// The bits of a float that is most likely no threshold.
fn strange_bits(chance: &mut Chance) -> u64 {
    let strange = [
        0.0,
        -0.0,
        -1.0,
        f64::INFINITY,
        f64::NEG_INFINITY,
        lean::NAN,
        f64::MIN_POSITIVE,
        f64::MAX,
    ];
    match chance.below(8) {
        0 | 1 => chance.pick(&strange).to_bits(),
        // A NaN of any sign and payload.
        2 => 0x7ff0_0000_0000_0001 | chance.word() >> 12 | chance.below(2) << 63,
        3 => (-chance.unit()).to_bits(),
        4 => (1.0 + chance.unit()).to_bits(),
        // Below the least normal float.
        5 => chance.word() >> 12,
        6 => (LEAST * half_to(chance.below(900))).to_bits(),
        _ => chance.word(),
    }
}

/// A word that brings the product to the threshold or beside it, or keeps it high, or ends it.
fn leaning_word(chance: &mut Chance, threshold: f64, seen: &[u64]) -> u64 {
    match chance.below(16) {
        0..=4 => chance.word(),
        5..=8 => lean::high_word(chance),
        9..=14 => {
            let product: f64 = seen.iter().map(|&word| fraction(word)).product();
            word_beside(chance, threshold / product, 2)
        }
        _ => lean::low_word(chance),
    }
}
