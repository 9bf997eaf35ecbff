//! The part of the stored list that stands on both sides of each edge: of every range, every choice
//! of a branch, every comparison in a draw, and the end of a tape.

use crate::cases::{Case, CAP};
use crate::chance::Chance;
use crate::judge::{Rate, Tray};
use crate::lean::{beside, half_to, NAN, NEGATIVE_NAN};
use crate::powers::{e_to_minus, power};
use crate::rates;
use crate::stored::{geometric, poisson, standard, tray, HALF, STEP, THREE_QUARTERS, TOP};
use crate::thresholds::LEAST;
use crate::trays::{kept_case, TrayWords};

/// All of them.
pub fn cases() -> Vec<Case> {
    [
        threshold_range(),
        threshold_met(),
        probability_range(),
        squarings(),
        trivial_met(),
        powers_met(),
        modes(),
        tray_sizes(),
        sums_met(),
        large_trays(),
        tape_ends(),
    ]
    .into_iter()
    .flatten()
    .collect()
}

/// The first word of a fraction, rounded down, moved by so many fractions.
fn word_at(fraction: f64, by: i64) -> u64 {
    let numerator = (fraction * (1_u64 << 53) as f64) as i64 + by;
    (numerator.clamp(0, (1 << 53) - 1) as u64) * STEP
}

/// The ends of the thresholds' range, with neighbours.
fn threshold_range() -> Vec<Case> {
    let mut cases = Vec::new();
    for end in [LEAST, 1.0] {
        for by in -2..=2 {
            let threshold = beside(end, by);
            cases.push(poisson(threshold, &[TOP]));
            cases.push(poisson(threshold, &[HALF, HALF, STEP, 0]));
            cases.push(poisson(threshold, &[word_at(LEAST, 0)]));
            cases.push(poisson(threshold, &[word_at(LEAST, 1), HALF]));
        }
    }
    cases
}

/// A first fraction, and a product of two, at a threshold and one step to either side.
fn threshold_met() -> Vec<Case> {
    let thresholds = [
        0.5,
        0.25,
        0.125,
        0.75,
        LEAST,
        1.0 - half_to(53),
        e_to_minus(1.0),
        e_to_minus(5.0),
        e_to_minus(11.5),
    ];
    let mut cases = Vec::new();
    for threshold in thresholds {
        for by in -1..=1 {
            cases.push(poisson(threshold, &[word_at(threshold, by), HALF, 0]));
            let second = word_at(threshold / 0.75, by);
            cases.push(poisson(threshold, &[THREE_QUARTERS, second, HALF, 0]));
        }
    }
    cases
}

/// The ends of the probabilities' range, those where 1 - p becomes 1, and floats that are none.
fn probability_range() -> Vec<Case> {
    let mut probabilities = vec![0.0, -0.0, -0.5, 1.5, NAN, NEGATIVE_NAN];
    probabilities.extend([f64::INFINITY, f64::NEG_INFINITY]);
    probabilities.extend([f64::from_bits(1), -f64::from_bits(1), f64::MIN_POSITIVE]);
    probabilities.extend((-2..=2).map(|by| beside(1.0, by)));
    probabilities.extend((-2..=2).map(|by| beside(half_to(54), by)));
    probabilities.extend((-1..=1).map(|by| beside(half_to(53), by)));
    let mut cases = Vec::new();
    for p in probabilities {
        cases.push(geometric(p, &[TOP, TOP, 0]));
        cases.push(geometric(p, &[]));
    }
    cases
}

/// The edge of each number of squarings, and of the branch that needs none, with neighbours.
fn squarings() -> Vec<Case> {
    let mut cases = Vec::new();
    for edge in rates::edges().into_iter().chain([rates::TRIVIAL]) {
        for by in -1..=1 {
            let p = beside(edge, by);
            let pi = Rate::new(p.to_bits()).pi();
            cases.push(geometric(
                p,
                &[word_at(pi, -1), word_at(pi, 0), TOP, 6, HALF, 0, 0],
            ));
        }
    }
    cases
}

/// A fraction at p and one step to either side, where fractions are counted one by one.
fn trivial_met() -> Vec<Case> {
    let mut cases = Vec::new();
    for p in [
        rates::TRIVIAL,
        0.7,
        0.75,
        0.9,
        1.0 - half_to(53),
        1.0 - half_to(52),
    ] {
        for by in -1..=1 {
            cases.push(geometric(p, &[word_at(p, by), 0]));
            cases.push(geometric(p, &[TOP, TOP, word_at(p, by), 0]));
        }
    }
    cases
}

/// Fractions at pi, and at the powers of 1 - p, and one step to either side.
fn powers_met() -> Vec<Case> {
    let mut cases = Vec::new();
    for p in [
        0.5,
        0.6,
        0.3,
        0.25,
        0.1,
        0.01,
        half_to(10),
        half_to(20),
        half_to(31),
    ] {
        let rate = Rate::new(p.to_bits());
        let largest = (1_u64 << rate.k()) - 1;
        for by in -1..=1 {
            cases.push(geometric(p, &[word_at(rate.pi(), by), TOP, 1, 0, 0]));
            for m in [1, largest / 2, largest] {
                let met = word_at(power(1.0 - p, m), by);
                cases.push(geometric(p, &[TOP, m, met, 0, 0]));
            }
        }
    }
    cases
}

/// Trays with (k+1)(n1+1) = 10(N+2), and with one of the numbers moved by one.
fn modes() -> Vec<Case> {
    let mut cases = Vec::new();
    for (short, long) in [(20, 20), (20, 30), (25, 40), (24, 45), (30, 50), (40, 60)] {
        let total = short * long / 10 - 2;
        for [more, longer, shorter] in [
            [1, 1, 1],
            [0, 1, 1],
            [2, 1, 1],
            [1, 0, 1],
            [1, 2, 1],
            [1, 1, 0],
            [1, 1, 2],
        ] {
            let total = total + more - 1;
            let (marked, sample) = (long + longer - 2, short + shorter - 2);
            cases.push(tray([total, marked, sample], &[HALF]));
            cases.push(tray([total, total - sample, total - marked], &[HALF]));
        }
    }
    cases
}

/// Numbers of marked and sampled things at both ends of 0 to N, at its middle, and above it.
fn tray_sizes() -> Vec<Case> {
    let mut cases = Vec::new();
    for total in [0_u64, 1, 2, 3, 7, 36] {
        let mut sizes = vec![0, total / 2, total / 2 + 1, total, total + 1];
        sizes.dedup();
        for &marked in &sizes {
            for &sample in &sizes {
                cases.push(tray([total, marked, sample], &[HALF + STEP]));
            }
        }
    }
    cases
}

/// A fraction at each sum of the probabilities, and one step to either side.
fn sums_met() -> Vec<Case> {
    let mut cases = Vec::new();
    for parameters in [
        [2, 1, 1],
        [9, 3, 4],
        [10, 8, 7],
        [60, 24, 7],
        [50, 35, 10],
        [98, 38, 24],
        [300, 150, 18],
    ] {
        let words = TrayWords::new(&Tray::new(parameters));
        for sum in words.sums().iter().take(10) {
            cases.extend((-1..=1).map(|by| tray(parameters, &[word_at(*sum, by)])));
        }
    }
    cases
}

/// Trays at the cap: refused by their numbers, at the edge of the mode, and at the overflow.
fn large_trays() -> Vec<Case> {
    let half = CAP / 2;
    let mut cases = vec![
        tray([CAP, 0, 0], &[HALF]),
        tray([CAP, CAP, CAP], &[HALF]),
        tray([CAP, CAP + 1, 1], &[HALF]),
        tray([CAP, 1, CAP + 1], &[HALF]),
        tray([CAP, half, 19], &[HALF]),
        tray([CAP, half, half], &[HALF]),
        tray([CAP, 50, 51], &[HALF]),
        tray([CAP, 51, 50], &[HALF]),
        tray([CAP, 10, CAP - 3], &[]),
    ];
    let chance = &mut Chance::new(5);
    for parameters in [
        [CAP, half, 18],
        [CAP, CAP - 18, half],
        [CAP - 1, 50, CAP - 1 - 50],
        [CAP, 51, 51],
    ] {
        cases.push(kept_case(chance, parameters, 20));
    }
    cases
}

/// Draws of every kind over their words, and over each shorter tape.
fn tape_ends() -> Vec<Case> {
    let product = [TOP, THREE_QUARTERS, THREE_QUARTERS, HALF, HALF, STEP];
    let found = [STEP, STEP, HALF, 3, TOP, 2, TOP, 1, 0];
    let mut cases = Vec::new();
    for length in 0..=product.len() {
        cases.push(poisson(LEAST, &product[..length]));
        cases.push(poisson(0.3, &product[..length]));
    }
    for length in 0..=found.len() {
        cases.push(geometric(0.3, &found[..length]));
        cases.push(geometric(0.01, &found[..length]));
    }
    for length in 0..=3 {
        cases.push(geometric(0.75, &[TOP, TOP, 0][..length]));
        cases.push(standard(&[0, 0, 5][..length]));
        cases.push(standard(&[0, 1, 0][..length]));
        cases.push(tray([60, 24, 7], &[HALF, 0, TOP][..length]));
        cases.push(tray([98, 39, 24], &[HALF, 0, TOP][..length]));
    }
    cases
}
