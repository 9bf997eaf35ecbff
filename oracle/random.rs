//! The two commands that draw by the million.

use crate::cases::{is_in_range, Case, Writer};
use crate::chance::Chance;
use crate::judge::{self, Threshold};
use crate::{rates, thresholds, trays};
use std::io::{self, Write};

/// No draw of many words is led on for longer than this.
const LONGEST: usize = 36;

/// A standard draw is shorter still.
const LONGEST_STANDARD: usize = 12;

/// How often each kind is chosen. A kept tray has many draws, so it is chosen seldom; a large one
/// takes long to set up, and is chosen some forty times in a million draws.
const WEIGHTS: [(u64, Choice); 6] = [
    (15_000, Choice::Hypergeometric),
    (20_000, Choice::Poisson),
    (20_000, Choice::Geometric),
    (10_000, Choice::Standard),
    (240, Choice::MediumTray),
    (4, Choice::LargeTray),
];

#[derive(Clone, Copy)]
enum Choice {
    Hypergeometric,
    Poisson,
    Geometric,
    Standard,
    MediumTray,
    LargeTray,
}

fn choose(chance: &mut Chance) -> Choice {
    let sum: u64 = WEIGHTS.iter().map(|(weight, _)| weight).sum();
    let mut roll = chance.below(sum);
    for (weight, choice) in WEIGHTS {
        if roll < weight {
            return choice;
        }
        roll -= weight;
    }
    unreachable!("the roll is below the sum of the weights")
}

/// Writes so many draws, all kinds mixed. Gives the totals.
pub fn random(out: impl Write, seed: u64, draws: u64) -> io::Result<String> {
    let mut seeds = Chance::new(seed);
    let edges = rates::edges();
    let mut writer = Writer::new(out);
    let mut left = draws;
    while left > 0 {
        let case = any_case(&mut seeds.for_case(), &edges, left);
        writer.put(&case)?;
        left -= case.draws();
    }
    writer.finish()
}

/// A case of any kind, of at most `most` draws.
fn any_case(chance: &mut Chance, edges: &[f64], most: u64) -> Case {
    match choose(chance) {
        Choice::Hypergeometric => trays::random_case(chance),
        Choice::Poisson => thresholds::random_case(chance, LONGEST, Threshold::of_lambda),
        Choice::Geometric => rates::random_case(chance, edges, LONGEST),
        Choice::Standard => rates::standard_case(chance, LONGEST_STANDARD),
        Choice::MediumTray => {
            let parameters = trays::medium(chance);
            let pairs = chance.between(150, 250).min(most);
            trays::kept_case(chance, parameters, pairs)
        }
        Choice::LargeTray => {
            let parameters = trays::large(chance);
            let pairs = chance.between(1_000, 2_000).min(most);
            trays::kept_case(chance, parameters, pairs)
        }
    }
}

/// Writes so many Poisson draws by the Rust's own set-up from lambda, each over just the words that
/// it used. Gives the totals and the thresholds seen, and whether all were in range.
pub fn lambdas(out: impl Write, seed: u64, draws: u64) -> io::Result<(String, bool)> {
    let mut seeds = Chance::new(seed);
    let mut writer = Writer::new(out);
    let (mut least, mut greatest) = (f64::INFINITY, f64::NEG_INFINITY);
    let mut all_inside = true;
    let mut fixed = thresholds::fixed_lambdas().into_iter();
    for _ in 0..draws {
        let mut chance = seeds.for_case();
        let lambda = fixed
            .next()
            .unwrap_or_else(|| thresholds::lambda(&mut chance));
        let threshold = Threshold::of_lambda(lambda);
        let draw = judge::draw(&threshold, |_| chance.word());
        writer.put(&judge::case_of(&threshold, &draw, draw.words.clone()))?;
        least = least.min(threshold.value());
        greatest = greatest.max(threshold.value());
        all_inside &= is_in_range(threshold.value());
    }
    let seen = format!("thresholds from {least:?} to {greatest:?}");
    Ok((format!("{}\n{seen}", writer.finish()?), all_inside))
}
