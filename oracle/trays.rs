//! Hypergeometric cases: trays at and beside every edge of the set-up, and words at and beside the
//! sums of their probabilities.

use crate::cases::{Act, Case, Kind, CAP};
use crate::chance::Chance;
use crate::judge::{SetUp, Sizes, Tray};
use crate::lean::{self, word_beside};
use crate::powers::two_to_minus;

/// A set-up of the Rust goes through n1 + k factors. One that would take more is not asked for.
const MOST_FACTORS: u64 = 2_000_000;

/// Trays at the edge of the mode have a shorter side of at most this. From about 50 on the first
/// probability of a large tray overflows, so that both sides of that edge are met too.
const WIDEST: u64 = 60;

/// The cap halved so often is just above 5,000.
const HALVINGS: f64 = 7.711;

/// A case of one draw.
pub fn random_case(chance: &mut Chance) -> Case {
    let tray = Tray::new(single(chance));
    let mut words = TrayWords::new(&tray);
    lean::case(chance, &tray, |chance, _| words.next(chance))
}

/// A case of many draws from a tray that is set up once. A population over the cap has none: the
/// other side refuses the set-up.
pub fn kept_case(chance: &mut Chance, parameters: [u64; 3], pairs: u64) -> Case {
    let tray = Tray::new(parameters);
    let mut words = TrayWords::new(&tray);
    let is_drawn_from = tray.act() == Act::Drew && parameters[0] <= CAP;
    let drawn = if is_drawn_from { pairs } else { 0 };
    let words: Vec<u64> = (0..drawn).map(|_| words.next(chance)).collect();
    kept_over(&tray, &words)
}

/// The case of a draw from a tray that is set up once over each of these words.
pub fn kept_over(tray: &Tray, words: &[u64]) -> Case {
    Case {
        kind: Kind::Kept,
        parameters: tray.parameters(),
        act: tray.act(),
        count: 0,
        used: 0,
        tape: words
            .iter()
            .flat_map(|&word| [word, tray.count(word)])
            .collect(),
    }
}

/// The parameters of a single draw: small for the most part, since each is set up for one word.
fn single(chance: &mut Chance) -> [u64; 3] {
    match chance.below(20) {
        0..=5 => {
            let total = chance.below(301);
            around(chance, total)
        }
        6..=9 => {
            let total = chance.below(301);
            inside(chance, total)
        }
        10..=12 => {
            let total = chance.below(14);
            around(chance, total)
        }
        13..=16 => at_mode(chance, 300),
        17 => {
            let total = chance.below(2_001);
            around(chance, total)
        }
        18 => near_cap(chance),
        _ => huge(chance),
    }
}

/// The parameters of a kept tray of at most 5,000 things.
pub fn medium(chance: &mut Chance) -> [u64; 3] {
    match chance.below(8) {
        0 | 1 => {
            let total = chance.between(1, 300);
            around(chance, total)
        }
        2 => {
            let total = chance.between(300, 5_000);
            around(chance, total)
        }
        3 => at_mode(chance, 400),
        4 => at_mode(chance, 5_000),
        5 => {
            let total = chance.between(1_200, 5_000);
            at_overflow(chance, total)
        }
        _ => {
            let total = chance.between(20, 5_000);
            inside(chance, total)
        }
    }
}

/// The parameters of a kept tray of more things than that, up to the cap and one above it.
pub fn large(chance: &mut Chance) -> [u64; 3] {
    let total = match chance.below(3) {
        0 => CAP + 1 - chance.below(8),
        _ => (CAP as f64 * two_to_minus(HALVINGS * chance.unit())) as u64,
    };
    match chance.below(8) {
        0 => at_mode(chance, CAP),
        1 | 2 => beside_mode(chance, total),
        3..=5 => at_overflow(chance, total),
        _ => inside(chance, total),
    }
}

/// A tray of so many things with any numbers of marked ones and sampled ones.
fn around(chance: &mut Chance, total: u64) -> [u64; 3] {
    let marked = number(chance, total);
    [total, marked, number(chance, total)]
}

/// A number at an end of 0 to `total`, at its middle, anywhere in it, or above it.
fn number(chance: &mut Chance, total: u64) -> u64 {
    match chance.below(16) {
        0 => 0,
        1 => 1,
        2 => total,
        3 => total.saturating_sub(1),
        4 => total / 2,
        5 => total / 2 + 1,
        6 => (total / 2).saturating_sub(1),
        7 => total + 1 + chance.below(3),
        _ => chance.below(total + 1),
    }
}

/// A tray of so many things that reduces to these two sizes: which is which, and which of the two
/// groups is the smaller one, is left to chance.
fn reduced_to(chance: &mut Chance, total: u64, sizes: [u64; 2]) -> [u64; 3] {
    let turn = chance.below(2) as usize;
    let mut part = |size: u64| {
        if chance.one_in(2) {
            size
        } else {
            total.saturating_sub(size)
        }
    };
    [total, part(sizes[turn]), part(sizes[1 - turn])]
}

/// A tray with (k+1)(n1+1) = 10(N+2), or with one of the numbers moved by one.
fn at_mode(chance: &mut Chance, most: u64) -> [u64; 3] {
    let product = 10 * (most + 2);
    let short = chance.between(20, product.isqrt().min(WIDEST));
    let long = chance.between(short, product / short - 10);
    let long = (long..long + 10)
        .find(|long| short * long % 10 == 0)
        .expect("one in ten is a multiple of ten");
    let total = short * long / 10 - 2;
    let mut moved = |number: u64| match chance.below(6) {
        0 => number - 1,
        1 => number + 1,
        _ => number,
    };
    let (total, sizes) = (moved(total), [moved(short - 1), moved(long - 1)]);
    reduced_to(chance, total, sizes)
}

/// A tray of so many things with (k+1)(n1+1) close to 10(N+2).
fn beside_mode(chance: &mut Chance, total: u64) -> [u64; 3] {
    let short = chance.between(20, WIDEST);
    let long = (10 * (total + 2) / short).saturating_add_signed(chance.step(1));
    reduced_to(chance, total, [short - 1, long - 1])
}

/// A tray of so many things whose first probability is close to the overflow on its way. The
/// product grows over min(n1, k) factors, and is once a factor larger than it stays.
fn at_overflow(chance: &mut Chance, total: u64) -> [u64; 3] {
    let long = chance.between(60, total / 10);
    let mut product = (total - long) as f64;
    let mut short = 0;
    while product.is_finite() && short < long {
        product *= (total - long - short) as f64;
        short += 1;
    }
    let short = short.saturating_add_signed(chance.step(2));
    let longest = (10 * (total + 2) / (short + 1)).saturating_sub(2);
    reduced_to(chance, total, [short, long.min(longest)])
}

/// A tray of so many things that can be drawn from.
fn inside(chance: &mut Chance, total: u64) -> [u64; 3] {
    let short = chance.below((total / 2 + 1).min(50));
    let longest = (10 * (total + 2) / (short + 1)).saturating_sub(2);
    let long = chance.between(short, longest.min(total / 2));
    reduced_to(chance, total, [short, long])
}

/// A tray about as large as the cap, or larger, with so little in it that its set-up is short.
fn near_cap(chance: &mut Chance) -> [u64; 3] {
    let total = match chance.below(4) {
        0 => CAP << chance.between(1, 30),
        _ => CAP - 3 + chance.below(7),
    };
    let sizes = if chance.one_in(2) {
        [chance.below(6), chance.below(60)]
    } else {
        [chance.between(44, 58), chance.between(44, 58)]
    };
    reduced_to(chance, total, sizes)
}

/// A tray as large as numbers are.
fn huge(chance: &mut Chance) -> [u64; 3] {
    let last = u64::MAX;
    let total = match chance.below(4) {
        0 => last - chance.below(6),
        1 => (1 << 63) - 3 + chance.below(6),
        2 => 1 << chance.between(21, 62),
        _ => chance.word() >> chance.below(40),
    };
    let mut number = || match chance.below(8) {
        0 | 1 => chance.below(50),
        2 | 3 => total.saturating_sub(chance.below(50)),
        4 => total / 2,
        5 => last - chance.below(3),
        _ => chance.word(),
    };
    let parameters = [total, number(), number()];
    if is_affordable(parameters) {
        parameters
    } else {
        near_cap(chance)
    }
}

/// Whether the Rust's set-up is short and none of its own sums wraps: refused at once, or sent to the
/// other branch by its mode, or a product of few factors that is drawn from without a wrap.
fn is_affordable([total, marked, sample]: [u64; 3]) -> bool {
    if marked > total || sample > total {
        return true;
    }
    let signed = i64::MAX as u64;
    if total > signed {
        return false;
    }
    let n1 = marked.min(total - marked);
    let k = sample.min(total - sample);
    let mode = (k + 1) as f64 * (n1 + 1) as f64 / (total + 2) as f64;
    let is_short = n1 + k <= MOST_FACTORS && (k + 1).saturating_mul(total + 1) <= signed;
    mode > 11.0 || is_short
}

/// A walk of more steps than this, past the support, is slow.
const LONG_WALK: u64 = 2_000;

/// So many slow walks a tray may have.
const FEW_WALKS: u32 = 2;

/// The words for a tray.
pub struct TrayWords {
    /// The sums of the probabilities from 0 on, so long as they grow.
    sums: Vec<f64>,
    /// How many words above all of the sums may still come, where the Rust's walk past the support
    /// would be long.
    walks_left: u32,
}

impl TrayWords {
    pub fn new(tray: &Tray) -> Self {
        let Some(sizes) = tray.sizes() else {
            return TrayWords {
                sums: Vec::new(),
                walks_left: 0,
            };
        };
        let is_long = sizes.k.saturating_sub(sizes.n1) > LONG_WALK;
        TrayWords {
            sums: running_sums(sizes),
            walks_left: if is_long { FEW_WALKS } else { u32::MAX },
        }
    }

    /// Half of the words are uniform; the rest lie at either end or beside a sum.
    pub fn next(&mut self, chance: &mut Chance) -> u64 {
        let word = match chance.below(16) {
            0..=7 => chance.word(),
            8 | 9 => lean::low_word(chance),
            10 | 11 => lean::high_word(chance),
            _ => {
                let sum = chance.pick(&self.sums);
                word_beside(chance, sum, 3)
            }
        };
        if !self.is_past(word) {
            return word;
        }
        if self.walks_left == 0 {
            return chance.word() / 2;
        }
        self.walks_left -= 1;
        word
    }

    /// Whether a word's fraction is close to the last sum, or above it.
    fn is_past(&self, word: u64) -> bool {
        let margin = 16.0 / (1_u64 << 53) as f64;
        self.sums
            .last()
            .is_some_and(|last| crate::fraction(word) > last - margin)
    }

    /// The sums of the probabilities.
    pub fn sums(&self) -> &[f64] {
        &self.sums
    }
}

/// The sums of a tray's probabilities in the order in which a draw takes them off.
fn running_sums(sizes: Sizes) -> Vec<f64> {
    let Sizes { n1, n2, k, first } = sizes;
    let (mut p, mut sum) = (first, first);
    let mut sums = vec![sum];
    for x in 0..n1.min(k) {
        p *= (n1 - x) as f64 * (k - x) as f64;
        p /= (x + 1) as f64 * (n2 - k + 1 + x) as f64;
        sum += p;
        if Some(&sum) != sums.last() {
            sums.push(sum);
        }
    }
    sums
}
