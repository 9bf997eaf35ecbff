//! Asking the Rust: its set-ups, and draws from them.
//!
//! Its fields are private. What has to be known of a set-up is read off its derived Debug text,
//! where a float is written so that reading it gives the same float.

use crate::cases::{Act, Case, Kind};
use crate::chance::Chance;
use crate::geometric::{Geometric, StandardGeometric};
use crate::hypergeometric::{Error, Hypergeometric};
use crate::poisson::{KnuthMethod, Poisson};
use crate::{Distribution, Rng};
use std::mem::{align_of, size_of, transmute};
use std::str::FromStr;

/// A distribution as the Rust sets it up, or its reason not to.
pub trait SetUp {
    const KIND: Kind;

    /// The parameters as a case holds them.
    fn parameters(&self) -> [u64; 3];

    /// `Drew` where it can be drawn from; else what a case says in place of a draw.
    fn act(&self) -> Act;

    /// The Rust's own draw. Only called where `act` is `Drew`.
    fn sample(&self, words: &mut impl Rng) -> u64;
}

/// A count, and the words that were handed out for it.
pub struct Draw {
    pub count: u64,
    pub words: Vec<u64>,
}

/// Hands out words without end, each chosen in sight of those before it, and records them.
struct Recorder<F> {
    choose: F,
    words: Vec<u64>,
}

impl<F: FnMut(&[u64]) -> u64> Rng for Recorder<F> {
    fn next_u64(&mut self) -> u64 {
        let word = (self.choose)(&self.words);
        self.words.push(word);
        word
    }
}

/// Has the Rust draw once over the words that `choose` gives.
pub fn draw(setup: &impl SetUp, choose: impl FnMut(&[u64]) -> u64) -> Draw {
    let mut recorder = Recorder {
        choose,
        words: Vec::new(),
    };
    let count = setup.sample(&mut recorder);
    Draw {
        count,
        words: recorder.words,
    }
}

/// The case of a draw with this tape. A tape shorter than the words used has ended.
pub fn case_of<S: SetUp>(setup: &S, draw: &Draw, tape: Vec<u64>) -> Case {
    let used = draw.words.len();
    if tape.len() < used {
        return stopped(setup, Act::TapeEnded, tape);
    }
    Case {
        kind: S::KIND,
        parameters: setup.parameters(),
        act: Act::Drew,
        count: draw.count,
        used: used as u64,
        tape,
    }
}

/// The case of a set-up that isn't drawn from, or not to the end.
pub fn stopped<S: SetUp>(setup: &S, act: Act, tape: Vec<u64>) -> Case {
    Case {
        kind: S::KIND,
        parameters: setup.parameters(),
        act,
        count: 0,
        used: 0,
        tape,
    }
}

/// The case of a given tape. The Rust reads on past its end over words of no meaning, so that it
/// comes to an end of its own.
pub fn over_tape<S: SetUp>(setup: &S, tape: &[u64]) -> Case {
    if setup.act() != Act::Drew {
        return stopped(setup, setup.act(), tape.to_vec());
    }
    let mut past = Chance::new(0);
    let drawn = draw(setup, |seen| match tape.get(seen.len()) {
        Some(&word) => word,
        None => past.word(),
    });
    case_of(setup, &drawn, tape.to_vec())
}

/// A field of a Debug text, by all that stands before its value.
fn field<T: FromStr>(text: &str, before: &str) -> T {
    let start = text.find(before).expect("a field of the Debug text") + before.len();
    let rest = &text[start..];
    let end = rest.find([',', ' ']).expect("the end of a field");
    rest[..end].parse().ok().expect("a number in a Debug text")
}

/// A hypergeometric set-up that can be drawn from, with what its Debug text says.
struct Ready {
    setup: Hypergeometric,
    sizes: Sizes,
}

/// The reduced sizes of a tray and its first probability, as the Rust has them.
#[derive(Clone, Copy)]
pub struct Sizes {
    pub n1: u64,
    pub n2: u64,
    pub k: u64,
    pub first: f64,
}

/// A hypergeometric set-up: N, K and n.
pub struct Tray {
    parameters: [u64; 3],
    ready: Result<Ready, Act>,
}

impl Tray {
    pub fn new(parameters: [u64; 3]) -> Self {
        let [total, marked, sample] = parameters;
        let ready = match Hypergeometric::new(total, marked, sample) {
            Ok(setup) => Self::read(setup),
            Err(Error::PopulationTooLarge) => Err(Act::PopulationTooLarge),
            Err(Error::ProbabilityTooLarge) => Err(Act::ProbabilityTooLarge),
            Err(Error::SampleSizeTooLarge) => Err(Act::SampleSizeTooLarge),
        };
        Tray { parameters, ready }
    }

    fn read(setup: Hypergeometric) -> Result<Ready, Act> {
        let text = format!("{setup:?}");
        if text.contains("RejectionAcceptance") {
            return Err(Act::ChoseRejection);
        }
        let sizes = Sizes {
            n1: field(&text, " n1: "),
            n2: field(&text, " n2: "),
            k: field(&text, " k: "),
            first: field(&text, " initial_p: "),
        };
        Ok(Ready { setup, sizes })
    }

    /// Its sizes, where it can be drawn from.
    pub fn sizes(&self) -> Option<Sizes> {
        self.ready.as_ref().ok().map(|ready| ready.sizes)
    }

    /// The count over one word.
    pub fn count(&self, word: u64) -> u64 {
        draw(self, |_| word).count
    }
}

impl SetUp for Tray {
    const KIND: Kind = Kind::Hypergeometric;

    fn parameters(&self) -> [u64; 3] {
        self.parameters
    }

    fn act(&self) -> Act {
        self.ready.as_ref().err().copied().unwrap_or(Act::Drew)
    }

    fn sample(&self, words: &mut impl Rng) -> u64 {
        match &self.ready {
            Ok(ready) => ready.setup.sample(words),
            Err(act) => panic!("drawn from after {act:?}"),
        }
    }
}

/// Where a threshold comes from: worked out by the Rust, or handed to its method.
enum Method {
    Made(Poisson<f64>),
    Handed(KnuthMethod<f64>),
}

/// A Poisson set-up by Knuth's method.
pub struct Threshold {
    bits: u64,
    method: Method,
}

impl Threshold {
    /// By the Rust's own set-up from lambda, which has to be above 0 and below 12.
    pub fn of_lambda(lambda: f64) -> Self {
        let made = Poisson::new(lambda).expect("a lambda above 0");
        let threshold: f64 = field(&format!("{made:?}"), " exp_lambda: ");
        Threshold {
            bits: threshold.to_bits(),
            method: Method::Made(made),
        }
    }

    /// With this threshold in place of the Rust's own.
    pub fn handed(bits: u64) -> Self {
        Threshold {
            bits,
            method: Method::Handed(method_with(f64::from_bits(bits))),
        }
    }

    pub fn value(&self) -> f64 {
        f64::from_bits(self.bits)
    }
}

impl SetUp for Threshold {
    const KIND: Kind = Kind::Poisson;

    fn parameters(&self) -> [u64; 3] {
        [self.bits, 0, 0]
    }

    /// No product is below 0, so over a threshold below 0 every tape ends before the draw does.
    fn act(&self) -> Act {
        if self.value() < 0.0 {
            Act::TapeEnded
        } else {
            Act::Drew
        }
    }

    fn sample(&self, words: &mut impl Rng) -> u64 {
        let count = match &self.method {
            Method::Made(made) => made.sample(words),
            Method::Handed(handed) => handed.sample(words),
        };
        let whole = count as u64;
        assert!(whole as f64 == count, "a Poisson count is a whole number");
        whole
    }
}

/// The method's one field is the threshold. It is private, and is put in by its bits.
fn method_with(threshold: f64) -> KnuthMethod<f64> {
    const {
        assert!(size_of::<KnuthMethod<f64>>() == size_of::<f64>());
        assert!(align_of::<KnuthMethod<f64>>() == align_of::<f64>());
    }
    // SAFETY: both have one size and alignment, and the struct holds a single f64, so any bits of
    // an f64 are a value of it.
    unsafe { transmute::<f64, KnuthMethod<f64>>(threshold) }
}

/// Ends the program unless a threshold that was put in is the one that the method then has.
pub fn check_handing() {
    let values = [0.5, 1.0, 0.1, 0.0, -2.5, 1.0 / 262_144.0, f64::MIN_POSITIVE];
    for value in values.into_iter().chain([f64::INFINITY, f64::NAN]) {
        let text = format!("{:?}", method_with(value));
        assert_eq!(text, format!("KnuthMethod {{ exp_lambda: {value:?} }}"));
        let read: f64 = field(&text, " exp_lambda: ");
        assert!(value.is_nan() || read.to_bits() == value.to_bits());
    }
}

/// Above this many squarings the other side refuses, and nothing is drawn.
const MOST_SQUARINGS: u64 = 31;

/// A geometric set-up.
pub struct Rate {
    bits: u64,
    ready: Result<Geometric, Act>,
    pi: f64,
    k: u64,
}

impl Rate {
    pub fn new(bits: u64) -> Self {
        let (mut pi, mut k) = (f64::NAN, 0);
        let ready = match Geometric::new(f64::from_bits(bits)) {
            Ok(setup) => {
                let text = format!("{setup:?}");
                pi = field(&text, " pi: ");
                k = field(&text, " k: ");
                Ok(setup)
            }
            Err(crate::geometric::Error::InvalidProbability) => Err(Act::InvalidProbability),
        };
        Rate {
            bits,
            ready: ready.and_then(|setup| bounded(setup, k)),
            pi,
            k,
        }
    }

    pub fn p(&self) -> f64 {
        f64::from_bits(self.bits)
    }

    /// The power of 1 - p that the first run is held against.
    pub fn pi(&self) -> f64 {
        self.pi
    }

    /// The number of squarings, or 0 where the draw needs none.
    pub fn k(&self) -> u64 {
        self.k
    }
}

/// A k too large is settled before a draw, so that a power is never left to the platform.
fn bounded(setup: Geometric, k: u64) -> Result<Geometric, Act> {
    if k > MOST_SQUARINGS {
        Err(Act::ChoseLargeK)
    } else {
        Ok(setup)
    }
}

impl SetUp for Rate {
    const KIND: Kind = Kind::Geometric;

    fn parameters(&self) -> [u64; 3] {
        [self.bits, 0, 0]
    }

    fn act(&self) -> Act {
        self.ready.as_ref().err().copied().unwrap_or(Act::Drew)
    }

    fn sample(&self, words: &mut impl Rng) -> u64 {
        match &self.ready {
            Ok(setup) => setup.sample(words),
            Err(act) => panic!("drawn from after {act:?}"),
        }
    }
}

/// The standard geometric distribution, which has no parameter.
pub struct Standard;

impl SetUp for Standard {
    const KIND: Kind = Kind::Standard;

    fn parameters(&self) -> [u64; 3] {
        [0, 0, 0]
    }

    fn act(&self) -> Act {
        Act::Drew
    }

    fn sample(&self, words: &mut impl Rng) -> u64 {
        StandardGeometric.sample(words)
    }
}
