//! The stored list: cases for the repository's own tests, which then need no Rust at hand. It is
//! the same each time and on every machine, as far as the compiler's powi is, by which the Rust
//! draws: no threshold in it is from the platform's exp.

use crate::cases::{Act, Case, Entry, Kind, Writer, CAP};
use crate::chance::Chance;
use crate::judge::{over_tape, Rate, Standard, Threshold, Tray};
use crate::lean::{beside, half_to, NAN, NEGATIVE_NAN};
use crate::{edges, rates, thresholds, trays};
use std::io::{self, Write};

/// The largest word.
pub const TOP: u64 = u64::MAX;

/// The word of the fraction a half.
pub const HALF: u64 = 1 << 63;

/// The word of the fraction three quarters.
pub const THREE_QUARTERS: u64 = 3 << 62;

/// From a fraction's first word to the first of the next fraction.
pub const STEP: u64 = 2_048;

/// Writes the list. Gives the totals.
pub fn stored(out: impl Write) -> io::Result<String> {
    let mut writer = Writer::new(out);
    let parts = [
        proved_rows(),
        other_rows(),
        sentence_below(),
        found_trays(),
        found_rates(),
        edges::cases(),
        outside_support(),
        outside_range(),
        over_cap(),
        random_cases(),
        gate_rows(),
        fractions(),
    ];
    for case in parts.iter().flatten() {
        writer.put(case)?;
    }
    writer.finish()
}

/// The case of a tray over a tape.
pub fn tray(parameters: [u64; 3], tape: &[u64]) -> Case {
    over_tape(&Tray::new(parameters), tape)
}

/// The case of a handed threshold over a tape.
pub fn poisson(threshold: f64, tape: &[u64]) -> Case {
    over_tape(&Threshold::handed(threshold.to_bits()), tape)
}

/// The case of a probability over a tape.
pub fn geometric(p: f64, tape: &[u64]) -> Case {
    over_tape(&Rate::new(p.to_bits()), tape)
}

/// The case of the standard geometric draw over a tape.
pub fn standard(tape: &[u64]) -> Case {
    over_tape(&Standard, tape)
}

/// The rows of the rules' table of draws that are proved too.
fn proved_rows() -> Vec<Case> {
    vec![
        tray([60, 24, 7], &[0]),
        tray([50, 35, 10], &[0]),
        tray([10, 3, 6], &[0]),
        tray([10, 8, 7], &[0]),
        tray([2, 1, 1], &[HALF]),
        tray([2, 1, 1], &[HALF + STEP]),
        poisson(0.5, &[THREE_QUARTERS; 3]),
        geometric(0.5, &[HALF, 1, 0]),
        geometric(0.5, &[HALF, 1, HALF, 0, HALF]),
        geometric(0.75, &[TOP, 0]),
        standard(&[0, HALF]),
    ]
}

/// The other rows of that table.
fn other_rows() -> Vec<Case> {
    let any = [0, 1, STEP - 1, STEP, HALF, 0x0123_4567_89ab_cdef, TOP];
    let mut cases: Vec<Case> = any.iter().map(|&word| tray([0; 3], &[word])).collect();
    cases.push(poisson(0.5, &[THREE_QUARTERS; 2]));
    cases.push(geometric(0.75, &[THREE_QUARTERS]));
    cases.extend([0.0, -0.0, half_to(54)].map(|p| geometric(p, &[])));
    cases
}

/// What the rules say below their table.
fn sentence_below() -> Vec<Case> {
    let words = [0, HALF, THREE_QUARTERS, TOP, 0x8000_0000_dead_beef];
    let mut cases: Vec<Case> = words
        .iter()
        .map(|&word| tray([98, 38, 24], &[word]))
        .collect();
    cases.push(tray([98, 39, 24], &[HALF]));
    cases.push(tray([CAP, 3_000, 3_000], &[HALF]));
    for p in [half_to(31), half_to(32)] {
        cases.push(geometric(p, &[HALF, 0, HALF]));
        cases.push(geometric(p, &[STEP, TOP, TOP, 0]));
    }
    cases
}

/// Trays in which a slip, or the Rust's own walk past the support, shows.
fn found_trays() -> Vec<Case> {
    let cancelled = 2_085_749_751_862_417 * STEP;
    let mut cases = vec![
        tray([9, 3, 4], &[TOP]),
        tray([9, 3, 5], &[TOP]),
        tray([48, 20, 22], &[0xffff_ffff_ffff_c000]),
        tray([41, 16, 17], &[cancelled]),
        tray([41, 16, 17], &[cancelled + STEP]),
        tray([41, 16, 17], &[cancelled - STEP]),
    ];
    for word in [0, HALF, TOP] {
        cases.push(tray([CAP, 50, 50], &[word]));
    }
    cases.push(tray([CAP, 51, 51], &[HALF]));
    cases
}

/// The two ends of TooRare, by bits: its last p and the next, 2^-54 and its first p.
const RARE_ENDS: [u64; 4] = [
    0x3df6_2e42_bfff_ffff,
    0x3df6_2e42_c000_0000,
    0x3c90_0000_0000_0000,
    0x3c90_0000_0000_0001,
];

/// Probabilities in which another order of multiplication shows, and the two ends of TooRare.
fn found_rates() -> Vec<Case> {
    let mut cases = vec![
        geometric(0.03103289008140564, &[TOP, 7, 0xcd4e_86cc_7f73_b000, 0, 0]),
        geometric(0.07371161878108978, &[TOP, 7, 0x95c8_884e_8bdd_9800, 0, 0]),
    ];
    for bits in RARE_ENDS {
        cases.push(geometric(f64::from_bits(bits), &[]));
        cases.push(geometric(f64::from_bits(bits), &[HALF, 1, HALF]));
    }
    cases
}

/// Draws that the Rust takes outside the support: some of the many of small trays.
fn outside_support() -> Vec<Case> {
    let mut found = Vec::new();
    for total in 9..=40 {
        for marked in 1..total {
            for sample in 1..total {
                let case = tray([total, marked, sample], &[TOP]);
                if case.entry() == Entry::Support {
                    found.push(case);
                }
            }
        }
    }
    let every = found.len().div_ceil(40);
    found.into_iter().step_by(every).collect()
}

/// Thresholds outside the range.
fn outside_range() -> Vec<Case> {
    let outside = [
        0.0,
        -0.0,
        -0.5,
        -half_to(60),
        f64::NEG_INFINITY,
        f64::INFINITY,
        f64::MAX,
        1.5,
        NAN,
        NEGATIVE_NAN,
        f64::from_bits(0x7ff0_0000_0000_0001),
        f64::MIN_POSITIVE,
        f64::from_bits(1),
        half_to(19),
        half_to(40),
        beside(1.0, 1),
        beside(thresholds::LEAST, -1),
    ];
    let tapes: [&[u64]; 3] = [&[], &[HALF, HALF, 0], &[THREE_QUARTERS, TOP, STEP]];
    let mut cases = Vec::new();
    for threshold in outside {
        cases.extend(tapes.map(|tape| poisson(threshold, tape)));
    }
    cases
}

/// Populations over the cap, and two that are refused for another reason first.
fn over_cap() -> Vec<Case> {
    let mut cases = Vec::new();
    for total in [CAP + 1, CAP + 2, 2 * CAP, 1 << 32, 1 << 62, (1 << 63) - 1] {
        for parameters in [
            [total, 0, 0],
            [total, 3, total - 4],
            [total, 60, 60],
            [total, total / 2, total / 2],
            [total, total, total],
        ] {
            cases.push(tray(parameters, &[HALF]));
        }
        cases.push(tray([total, 1, 1], &[]));
        cases.push(tray([total, total + 1, 1], &[HALF]));
        cases.push(tray([total, 1, total + 1], &[HALF]));
    }
    cases.push(trays::kept_case(&mut Chance::new(0), [CAP + 1, 5, 5], 20));
    cases.push(trays::kept_case(&mut Chance::new(0), [CAP + 1, 60, 60], 20));
    cases
}

/// Random cases of every kind, with short tapes.
fn random_cases() -> Vec<Case> {
    const LONGEST: usize = 12;
    let chance = &mut Chance::new(20);
    let edges = rates::edges();
    let mut cases = Vec::new();
    for turn in 0..252 {
        cases.push(trays::random_case(chance));
        cases.push(thresholds::random_case(
            chance,
            LONGEST,
            thresholds::worked_out,
        ));
        cases.push(rates::random_case(chance, &edges, LONGEST));
        cases.push(rates::standard_case(chance, 5));
        if turn % 12 == 0 {
            let parameters = trays::medium(chance);
            cases.push(trays::kept_case(chance, parameters, 20));
        }
    }
    cases
}

/// Single draws that every gate looks at: each refusal of the parameters and which of two wins, tapes
/// that end, and one tray over a low and a high word, set up for each and kept for both.
fn gate_rows() -> Vec<Case> {
    let mut cases = Vec::new();
    for threshold in [thresholds::LEAST, 1.0, 1.5, NAN] {
        cases.push(poisson(threshold, &[THREE_QUARTERS; 3]));
    }
    cases.extend([1.0, 1.5, NAN].map(|p| geometric(p, &[TOP, 0])));
    cases.push(geometric(0.5, &[HALF, 1, HALF, 0]));
    cases.extend([half_to(31), half_to(32)].map(|p| geometric(p, &[TOP, 5, 0])));
    cases.extend(RARE_ENDS.map(|bits| geometric(f64::from_bits(bits), &[TOP, 5, 0])));
    let tapes: [&[u64]; 3] = [&[0, HALF, 1], &[1], &[0]];
    cases.extend(tapes.map(standard));
    let refused = [
        [98, 39, 24],
        [5, 6, 6],
        [5, 5, 6],
        [CAP + 1, CAP + 2, 1],
        [CAP + 1, 1, 1],
        [CAP, 51, 51],
        [CAP, 3_000, 3_000],
    ];
    cases.extend(refused.map(|parameters| tray(parameters, &[0])));
    let words = [0x1000_0000_0000_0000, 0xf000_0000_0000_0000];
    cases.extend(words.map(|word| tray([60, 24, 7], &[word])));
    cases.push(trays::kept_over(&Tray::new([60, 24, 7]), &words));
    cases
}

/// Words, and the bits of the fraction that a published rand gave for each: 0.8.5, by
/// `gen::<f64>()`, as fraction.rs asks it.
const FRACTIONS: [[u64; 2]; 16] = [
    [0x0000_0000_0000_0000, 0x0000_0000_0000_0000],
    [0x0000_0000_0000_0001, 0x0000_0000_0000_0000],
    [0x0000_0000_0000_07ff, 0x0000_0000_0000_0000],
    [0x0000_0000_0000_0800, 0x3ca0_0000_0000_0000],
    [0x0000_0000_0000_0801, 0x3ca0_0000_0000_0000],
    [0x0000_0000_0000_0fff, 0x3ca0_0000_0000_0000],
    [0x0000_0000_0000_1000, 0x3cb0_0000_0000_0000],
    [0x8000_0000_0000_0000, 0x3fe0_0000_0000_0000],
    [0x8000_0000_0000_0800, 0x3fe0_0000_0000_0001],
    [0x7fff_ffff_ffff_ffff, 0x3fdf_ffff_ffff_fffe],
    [0x1234_5678_9abc_def0, 0x3fb2_3456_789a_bcd8],
    [0xc000_0000_0000_0000, 0x3fe8_0000_0000_0000],
    [0xcd4e_86cc_7f73_b000, 0x3fe9_a9d0_d98f_ee76],
    [0xffff_ffff_ffff_f7ff, 0x3fef_ffff_ffff_fffe],
    [0xffff_ffff_ffff_f800, 0x3fef_ffff_ffff_ffff],
    [0xffff_ffff_ffff_ffff, 0x3fef_ffff_ffff_ffff],
];

/// The recorded fractions.
fn fractions() -> Vec<Case> {
    let case = |[word, bits]: [u64; 2]| Case {
        kind: Kind::Fraction,
        parameters: [word, bits, 0],
        act: Act::Drew,
        count: 0,
        used: 0,
        tape: Vec::new(),
    };
    FRACTIONS.map(case).into()
}
