//! The Rust as functions that C can call, each with the signature and the struct of include/banlothek.h, so that one host runs both.
#![allow(dead_code, unused_imports)]
extern crate self as num_traits;
extern crate self as rand;
mod geometric;
mod hypergeometric;
mod poisson;
mod shim;
pub use shim::*;

/// `banlothek_answer`.
#[repr(C)]
pub struct Answer {
    refusal: u32,
    copied: u32,
    serial: u32,
    used: u32,
    count: u64,
}

/// The words of a tape, each read behind a test of the end, as a slice is.
struct Tape<'a> {
    words: &'a [u64],
    used: usize,
}

impl Rng for Tape<'_> {
    #[inline]
    fn next_u64(&mut self) -> u64 {
        let word = self.words[self.used];
        self.used += 1;
        word
    }
}

impl<'a> Tape<'a> {
    unsafe fn of(tape: *const u64, words: usize) -> Tape<'a> {
        Tape {
            words: unsafe { std::slice::from_raw_parts(tape, words) },
            used: 0,
        }
    }

    fn drawn(&self, count: u64) -> Answer {
        Answer {
            refusal: 0,
            copied: 0,
            serial: 0,
            used: self.used as u32,
            count,
        }
    }
}

/// What the Rust refuses; which refusal it is no row of the table asks.
const REFUSED: Answer = Answer {
    refusal: 1,
    copied: 0,
    serial: 0,
    used: 0,
    count: 0,
};

#[no_mangle]
pub unsafe extern "C" fn rust_draw_hypergeometric(
    tape: *const u64,
    words: usize,
    total: u64,
    marked: u64,
    sample: u64,
) -> Answer {
    let mut tape = unsafe { Tape::of(tape, words) };
    let Ok(tray) = hypergeometric::Hypergeometric::new(total, marked, sample) else {
        return REFUSED;
    };
    let count = tray.sample(&mut tape);
    tape.drawn(count)
}

/// A Poisson count is a float in the Rust: one instruction, with none of the tests of `as`, so that the Rust isn't charged for this.
unsafe fn whole(count: f64) -> u64 {
    (unsafe { count.to_int_unchecked::<i64>() }) as u64
}

#[no_mangle]
pub unsafe extern "C" fn rust_draw_poisson(
    tape: *const u64,
    words: usize,
    threshold_bits: u64,
) -> Answer {
    let mut tape = unsafe { Tape::of(tape, words) };
    let method: poisson::KnuthMethod<f64> =
        unsafe { std::mem::transmute(f64::from_bits(threshold_bits)) };
    let count: f64 = method.sample(&mut tape);
    tape.drawn(unsafe { whole(count) })
}

/// `Poisson::new` and a draw: the threshold worked out by exp, which this library leaves to its caller.
#[no_mangle]
pub unsafe extern "C" fn rust_new_poisson(
    tape: *const u64,
    words: usize,
    lambda_bits: u64,
) -> Answer {
    let mut tape = unsafe { Tape::of(tape, words) };
    let Ok(poisson) = poisson::Poisson::new(f64::from_bits(lambda_bits)) else {
        return REFUSED;
    };
    let count: f64 = poisson.sample(&mut tape);
    tape.drawn(unsafe { whole(count) })
}

#[no_mangle]
pub unsafe extern "C" fn rust_draw_geometric(tape: *const u64, words: usize, p_bits: u64) -> Answer {
    let mut tape = unsafe { Tape::of(tape, words) };
    let Ok(geometric) = geometric::Geometric::new(f64::from_bits(p_bits)) else {
        return REFUSED;
    };
    let count = geometric.sample(&mut tape);
    tape.drawn(count)
}

#[no_mangle]
pub unsafe extern "C" fn rust_draw_standard_geometric(tape: *const u64, words: usize) -> Answer {
    let mut tape = unsafe { Tape::of(tape, words) };
    let count = geometric::StandardGeometric.sample(&mut tape);
    tape.drawn(count)
}

/// As many draws from one set-up, over the tape's words counted round, as the program `bench_kept` makes: the sum of the counts.
#[no_mangle]
pub unsafe extern "C" fn rust_kept(case: *const u64, words: usize) -> u64 {
    let case = unsafe { std::slice::from_raw_parts(case, words) };
    let Ok(tray) = hypergeometric::Hypergeometric::new(case[0], case[1], case[2]) else {
        return 0;
    };
    let words = &case[4..];
    let mut sum: u64 = 0;
    let mut at = 0;
    for _ in 0..case[3] {
        let mut tape = Tape { words, used: at };
        sum = sum.wrapping_add(tray.sample(&mut tape));
        at = if at + 1 < words.len() { at + 1 } else { 0 };
    }
    sum
}
