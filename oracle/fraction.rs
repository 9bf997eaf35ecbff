//! Holds the fraction of a word, as the oracle has it, against a published rand, to the bit: over
//! random words, and over those on either side of each power of two. rand 0.10, which the judged
//! files name, isn't needed for this; what is compared is 0.8.5.

// Both have more than is used here.
#[allow(dead_code)]
mod chance;
#[allow(dead_code)]
mod shim;

use chance::Chance;
use rand::{Error, Rng, RngCore};
use shim::fraction;
use std::process::ExitCode;

/// So many words on either side of a power of two.
const BESIDE: u64 = 4_096;

/// A source that has one word, and hands it out.
struct Word(u64);

impl RngCore for Word {
    fn next_u64(&mut self) -> u64 {
        self.0
    }

    fn next_u32(&mut self) -> u32 {
        panic!("a fraction takes a whole word")
    }

    fn fill_bytes(&mut self, _bytes: &mut [u8]) {
        panic!("a fraction takes a whole word")
    }

    fn try_fill_bytes(&mut self, _bytes: &mut [u8]) -> Result<(), Error> {
        panic!("a fraction takes a whole word")
    }
}

fn differs(word: u64) -> bool {
    Word(word).gen::<f64>().to_bits() != fraction(word).to_bits()
}

/// The words beside each power of two, and both ends.
fn edges() -> impl Iterator<Item = u64> {
    let beside = |power: u32| {
        let first = (1_u64 << power).wrapping_sub(BESIDE);
        (0..2 * BESIDE).map(move |by| first.wrapping_add(by))
    };
    (0..64).flat_map(beside).chain([0, u64::MAX])
}

fn main() -> ExitCode {
    let mut arguments = std::env::args().skip(1);
    let millions = arguments.next().and_then(|text| text.parse::<u64>().ok());
    let (Some(millions), None) = (millions, arguments.next()) else {
        eprintln!("usage: fraction MILLIONS");
        return ExitCode::from(2);
    };
    let mut chance = Chance::new(1);
    let random = (0..millions * 1_000_000).map(|_| chance.word());
    let (mut compared, mut different) = (0_u64, 0_u64);
    for word in edges().chain(random) {
        compared += 1;
        different += u64::from(differs(word));
    }
    println!("fraction: {compared} words compared with rand 0.8.5, {different} differ");
    ExitCode::from(u8::from(different > 0))
}
