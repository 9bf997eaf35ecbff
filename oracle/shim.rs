//! The names of rand 0.10 and num_traits that the judged files use, in std alone.
//!
//! Only what a compared draw reaches has a body. The rest panics: a branch that is never compared
//! must not pass for an answer.

use std::marker::PhantomData;
use std::ops::{Add, Div, Mul, Neg, Sub};

/// What a body says that no compared draw reaches.
const NOT_TAKEN: &str = "a branch that is never compared was taken";

/// A source of 64-bit words.
pub trait Rng {
    fn next_u64(&mut self) -> u64;
}

/// What can be drawn from a source of words.
pub trait Distribution<T> {
    fn sample<R: Rng + ?Sized>(&self, rng: &mut R) -> T;
}

/// The distribution behind `random`.
#[derive(Clone, Copy, Debug)]
pub struct StandardUniform;

impl Distribution<u64> for StandardUniform {
    fn sample<R: Rng + ?Sized>(&self, rng: &mut R) -> u64 {
        rng.next_u64()
    }
}

impl Distribution<f64> for StandardUniform {
    fn sample<R: Rng + ?Sized>(&self, rng: &mut R) -> f64 {
        fraction(rng.next_u64())
    }
}

/// The fraction of a word: its upper 53 bits, as so many times 2^-53. Each step is exact.
pub fn fraction(word: u64) -> f64 {
    (word >> 11) as f64 * (1.0 / (1_u64 << 53) as f64)
}

/// `random`, on every source of words.
pub trait RngExt: Rng {
    fn random<T>(&mut self) -> T
    where
        StandardUniform: Distribution<T>,
    {
        StandardUniform.sample(self)
    }
}

impl<R: Rng + ?Sized> RngExt for R {}

/// The path by which the hypergeometric file names `Uniform`.
pub mod distr {
    pub mod uniform {
        /// Only the rejection branch asks for it.
        pub struct Uniform;

        impl Uniform {
            pub fn new(_low: f64, _high: f64) -> Option<Self> {
                panic!("{}", super::super::NOT_TAKEN)
            }

            pub fn sample<R: ?Sized>(&self, _rng: &mut R) -> f64 {
                panic!("{}", super::super::NOT_TAKEN)
            }
        }
    }
}

/// The arithmetic that a generic float has to have.
pub trait Arithmetic:
    Neg<Output = Self>
    + Add<Output = Self>
    + Sub<Output = Self>
    + Mul<Output = Self>
    + Div<Output = Self>
    + Sized
{
}

impl Arithmetic for f64 {}

/// `Float` and its body for `f64`. The functions named to the macro belong to the rejection branch.
macro_rules! float {
    ($($name:ident($($argument:ident: $of:ty),*) -> $gives:ty;)*) => {
        pub trait Float: Arithmetic + Copy + PartialOrd {
            fn from<T: Into<f64>>(value: T) -> Option<Self>;
            fn zero() -> Self;
            fn one() -> Self;
            fn is_finite(self) -> bool;
            fn exp(self) -> Self;
            $(fn $name(self $(, $argument: $of)*) -> $gives;)*
        }

        impl Float for f64 {
            fn from<T: Into<f64>>(value: T) -> Option<Self> {
                Some(value.into())
            }

            fn zero() -> Self {
                0.0
            }

            fn one() -> Self {
                1.0
            }

            fn is_finite(self) -> bool {
                f64::is_finite(self)
            }

            fn exp(self) -> Self {
                f64::exp(self)
            }

            $(fn $name(self $(, $argument: $of)*) -> $gives {
                $(let _ = $argument;)*
                panic!("{NOT_TAKEN}")
            })*
        }
    };
}

float! {
    sqrt() -> Self;
    floor() -> Self;
    ln() -> Self;
    abs() -> Self;
    signum() -> Self;
    recip() -> Self;
    powi(exponent: i32) -> Self;
    powf(exponent: Self) -> Self;
    to_usize() -> Option<usize>;
}

/// Constants of a float; of them one is named, by the rejection branch.
pub trait FloatConst {
    #[allow(non_snake_case)]
    fn PI() -> Self;
}

impl FloatConst for f64 {
    fn PI() -> Self {
        panic!("{NOT_TAKEN}")
    }
}

/// Distributions that the rejection branch alone draws from.
macro_rules! never_drawn {
    ($($name:ident),*) => {$(
        #[derive(Clone, Copy, Debug)]
        pub struct $name;

        impl<F> Distribution<F> for $name {
            fn sample<R: Rng + ?Sized>(&self, _rng: &mut R) -> F {
                panic!("{NOT_TAKEN}")
            }
        }
    )*};
}

never_drawn!(Exp1, StandardNormal);

/// Another of them, of one type of float.
pub struct Normal<F>(PhantomData<F>);

impl<F> Normal<F> {
    pub fn new(_mean: F, _deviation: F) -> Option<Self> {
        panic!("{NOT_TAKEN}")
    }
}

impl<F> Distribution<F> for Normal<F> {
    fn sample<R: Rng + ?Sized>(&self, _rng: &mut R) -> F {
        panic!("{NOT_TAKEN}")
    }
}
