//! What the choices for every kind share: words at and beside a fraction, floats beside a float,
//! and which part of a draw's words becomes the tape.

use crate::cases::{Act, Case};
use crate::chance::Chance;
use crate::judge::{self, SetUp};

/// A NaN by its bits: those of `f64::NAN` are not promised.
pub const NAN: f64 = f64::from_bits(0x7ff8_0000_0000_0000);

/// The same with the sign of a negative number.
pub const NEGATIVE_NAN: f64 = f64::from_bits(0xfff8_0000_0000_0000);

/// The number of different fractions.
const FRACTIONS: i64 = 1 << 53;

/// A word whose fraction is this one, rounded down, or at most `reach` times 2^-53 beside it. Its
/// low bits, which no fraction looks at, are random.
pub fn word_beside(chance: &mut Chance, fraction: f64, reach: u64) -> u64 {
    let nearest = ((fraction * FRACTIONS as f64) as i64).clamp(0, FRACTIONS);
    let numerator = (nearest + chance.step(reach)).clamp(0, FRACTIONS - 1);
    ((numerator as u64) << 11) | chance.below(2048)
}

/// A word whose fraction is 0 or one of the next few.
pub fn low_word(chance: &mut Chance) -> u64 {
    chance.pick(&[0, 2048, 4096]) * chance.below(8)
}

/// A word whose fraction is one of the last below 1.
pub fn high_word(chance: &mut Chance) -> u64 {
    if chance.one_in(3) {
        u64::MAX
    } else {
        (2048 * (1 + chance.below(24))).wrapping_neg()
    }
}

/// The float that is `by` places beside a positive one.
pub fn beside(value: f64, by: i64) -> f64 {
    f64::from_bits(value.to_bits().wrapping_add_signed(by))
}

/// Two to the power -`j`, for j below 1,023.
pub fn half_to(j: u64) -> f64 {
    f64::from_bits((1023 - j) << 52)
}

/// Words that stand on a tape and say nothing.
pub fn some_words(chance: &mut Chance, most: u64) -> Vec<u64> {
    let length = chance.below(most + 1);
    (0..length)
        .map(|_| match chance.below(4) {
            0 => 0,
            1 => u64::MAX,
            _ => chance.word(),
        })
        .collect()
}

/// The case of a draw over the words that `choose` gives, with a tape that has the words used, or
/// some more, or too few.
pub fn case<S: SetUp>(
    chance: &mut Chance,
    setup: &S,
    mut choose: impl FnMut(&mut Chance, &[u64]) -> u64,
) -> Case {
    if setup.act() != Act::Drew {
        return judge::stopped(setup, setup.act(), some_words(chance, 3));
    }
    let draw = judge::draw(setup, |seen| choose(chance, seen));
    let mut tape = draw.words.clone();
    match chance.below(10) {
        0 => tape.truncate(chance.below(tape.len() as u64) as usize),
        1..=5 => {}
        _ => {
            tape.push(chance.word());
            tape.extend(some_words(chance, 2));
        }
    }
    judge::case_of(setup, &draw, tape)
}
