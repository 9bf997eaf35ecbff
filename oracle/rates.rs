//! Geometric cases: probabilities at and beside every edge of the three branches, and words whose
//! fractions meet what they are compared with. Standard geometric cases too.

use crate::cases::Case;
use crate::chance::Chance;
use crate::fraction;
use crate::judge::{Rate, Standard};
use crate::lean::{self, beside, half_to, word_beside};
use crate::powers::{power, two_to_minus};

/// From here on the Rust counts fractions one by one.
pub const TRIVIAL: f64 = 2.0 / 3.0;

/// The least p of each number of squarings from 1 to 31, found by halving the bits between a p
/// that needs more and one that needs one.
pub fn edges() -> Vec<f64> {
    (1..=31).map(least_with).collect()
}

/// The least p that needs at most `k` squarings.
fn least_with(k: u64) -> f64 {
    let mut more = half_to(53).to_bits();
    let mut enough = 0.5_f64.to_bits();
    while enough - more > 1 {
        let middle = more + (enough - more) / 2;
        if Rate::new(middle).k() <= k {
            enough = middle;
        } else {
            more = middle;
        }
    }
    f64::from_bits(enough)
}

/// A geometric case, with about `longest` words at most.
pub fn random_case(chance: &mut Chance, edges: &[f64], longest: usize) -> Case {
    let rate = Rate::new(probability(chance, edges).to_bits());
    let leaning = chance.one_in(2);
    lean::case(chance, &rate, |chance, seen| {
        let place = place_of(&rate, seen);
        if seen.len() >= longest {
            place.ending_word()
        } else if leaning {
            leaning_word(chance, &rate, place)
        } else {
            chance.word()
        }
    })
}

/// A probability: any, or at or beside an edge.
fn probability(chance: &mut Chance, edges: &[f64]) -> f64 {
    let rarest = edges[edges.len() - 1];
    let rare = [half_to(31), half_to(32), half_to(53), half_to(54), rarest];
    match chance.below(20) {
        0..=6 => chance.unit(),
        7 | 8 => two_to_minus(32.0 * chance.unit()),
        9 | 10 => beside(TRIVIAL, chance.step(3)),
        11 => beside(1.0, chance.step(3)),
        12 | 13 => beside(half_to(1 + chance.below(60)), chance.step(3)),
        14 | 15 => beside(chance.pick(edges), chance.step(3)),
        16 => chance.pick(edges) + chance.step(3) as f64 * half_to(53),
        17 => beside(chance.pick(&rare), chance.step(3)),
        18 => strange_probability(chance),
        _ => TRIVIAL + chance.unit() / 3.0,
    }
}

/// A float at either end of the range, or outside it.
fn strange_probability(chance: &mut Chance) -> f64 {
    let strange = [
        0.0,
        -0.0,
        -half_to(60),
        -1.0,
        2.0,
        lean::NAN,
        lean::NEGATIVE_NAN,
        f64::INFINITY,
        f64::NEG_INFINITY,
        f64::MIN_POSITIVE,
        f64::from_bits(1),
        -f64::from_bits(1),
    ];
    if chance.one_in(4) {
        f64::from_bits(chance.word())
    } else {
        chance.pick(&strange)
    }
}

/// What the next word of a geometric draw is for.
#[derive(Clone, Copy)]
enum Place {
    /// A fraction held against p.
    Trivial,
    /// A fraction held against pi.
    Run,
    /// A remainder to try.
    Remainder,
    /// A fraction held against the power of 1 - p by this remainder.
    Try(u64),
}

/// The place after these words: the first fraction that isn't below pi ends the run, and after it
/// remainders and tries take turns.
fn place_of(rate: &Rate, seen: &[u64]) -> Place {
    if rate.k() == 0 {
        return Place::Trivial;
    }
    let run_end = seen.iter().position(|&word| fraction(word) >= rate.pi());
    match (run_end, seen.last()) {
        (Some(end), Some(last)) if (seen.len() - end) % 2 == 0 => {
            Place::Try(last & ((1 << rate.k()) - 1))
        }
        (Some(_), _) => Place::Remainder,
        (None, _) => Place::Run,
    }
}

impl Place {
    /// A word that brings the draw closer to its end.
    fn ending_word(self) -> u64 {
        match self {
            Place::Run => u64::MAX,
            Place::Trivial | Place::Remainder | Place::Try(_) => 0,
        }
    }
}

/// A word whose fraction is at or beside what it is held against, or keeps the draw going.
fn leaning_word(chance: &mut Chance, rate: &Rate, place: Place) -> u64 {
    let roll = chance.below(8);
    match (place, roll) {
        (_, 0) => chance.word(),
        (_, 1) => chance.pick(&[0, 1, u64::MAX, 1 << 63]),
        (Place::Trivial, 2..=4) => word_beside(chance, rate.p(), 2),
        (Place::Trivial, _) => lean::high_word(chance),
        (Place::Run, 2..=3) => word_beside(chance, rate.pi(), 2),
        (Place::Run, _) => {
            let below = rate.pi() * chance.unit();
            word_beside(chance, below, 0)
        }
        (Place::Remainder, _) => remainder_word(chance, rate.k()),
        (Place::Try(m), 2..=6) => word_beside(chance, power(1.0 - rate.p(), m), 2),
        (Place::Try(_), _) => lean::high_word(chance),
    }
}

/// A word whose remainder by 2^k is one of the least or the largest, or has few ones or zeros.
fn remainder_word(chance: &mut Chance, k: u64) -> u64 {
    let above = chance.word() << k;
    let mask = (1 << k) - 1;
    above
        | match chance.below(6) {
            0 => 0,
            1 => mask,
            2 => mask - chance.below(mask + 1).min(3),
            3 => 1 << chance.below(k),
            4 => mask ^ (1 << chance.below(k)),
            _ => chance.below(mask + 1),
        }
}

/// A standard geometric case, with at most `longest` words.
pub fn standard_case(chance: &mut Chance, longest: usize) -> Case {
    // In this case so many rolls of six give a word that the draw goes on after.
    let zeros = chance.below(4);
    lean::case(chance, &Standard, |chance, seen| {
        if seen.len() + 1 >= longest {
            return 1 << chance.below(64);
        }
        match chance.below(6) {
            roll if roll < zeros => 0,
            3 => chance.pick(&[1, 2, 1 << 63, u64::MAX, 1 << 62]),
            4 => chance.word() >> chance.below(64),
            5 => 1 << chance.below(64),
            _ => chance.word(),
        }
    })
}
