//! How many vials of a tray go to the reference scale, drawn from a recorded tape of random words
//! and kept in a book, so that a copy of a message gets the answer that the message got.
//!
//! # What keeps a line safe
//!
//! 1. The book is on the disk before the answer is used. A call changes the book in memory alone.
//!    After one that changed it, write it to a new file, sync that file, rename it over the old one
//!    and sync the folder; then hand the answer on. If a step fails, give no answer and end: the
//!    next start goes on from the file.
//! 2. One tape for one book, the same words from the first booking to the last call. Over another
//!    tape a book can look sound; [`redraw`] finds the first entry that differs (refusal 17).
//! 3. The same message again after a crash. Whoever has no answer sends the same serial with the
//!    same request: if it was booked, the answer comes as a copy; if not, it is booked now.
//! 4. A strike that is sent again strikes again, and takes back bookings that were answered.
//!    `strike(tape, book, 0)` changes nothing and answers how many entries stand: look first.
//! 5. One writer for one book: hold a lock while you have it.
//!
//! `examples/durable.rs` is a small host that does all of this. It has no strikes.
//!
//! # What a caller owes
//!
//! Slices meet all that the header asks of pointers. One thing is left, and no function can test
//! it: the floating-point environment is as a process starts with it, rounding to nearest, nothing
//! flushed to zero, no exception that traps. Rust itself assumes just that, but code of another
//! language in the same process may have changed it. The same Poisson draw counted 1 to nearest and
//! 2 rounding up, and a redraw to nearest refused what was booked so, by 17.
//!
//! # The library
//!
//! This is a safe wrapper over `libbanlothek.a`, the C functions of Banlothek. What they answer is
//! proved of them for every input: no word, parameter or byte is wrong to pass. Each call ends, and
//! answers or refuses; a call that is refused changes no byte. The library keeps nothing between
//! calls and allocates nothing, and neither does this wrapper.
//!
//! The archive is for x86-64 Linux. Elsewhere this crate can be checked and documented, not linked.
//!
//! ```
//! use banlothek::{deliver, redraw, strike, Refusal, Request};
//!
//! // The recorded words, and the book: all zeros at first.
//! let tape = [9 << 60, 3 << 62, 3 << 62, 3 << 62];
//! let mut book = [0; 65_536];
//! let tray = Request::Hypergeometric { total: 60, marked: 24, sample: 7 };
//!
//! let first = deliver(&tape, &mut book, 1, tray)?;
//! assert_eq!((first.count, first.used, first.copied), (3, 1, false));
//! let second = deliver(&tape, &mut book, 2, Request::Poisson { threshold: 0.5 })?;
//! assert_eq!((second.count, second.used, second.copied), (2, 3, false));
//!
//! // The first message comes again, and gets its count again.
//! let again = deliver(&tape, &mut book, 1, tray)?;
//! assert_eq!((again.count, again.used, again.copied), (3, 1, true));
//!
//! // Drawn again, both entries agree. Then the last is taken back, and one is left.
//! assert_eq!(redraw(&tape, &book)?, 2);
//! assert_eq!(strike(&tape, &mut book, 1)?, 1);
//! # Ok::<(), Refusal>(())
//! ```

#![warn(missing_docs)]

use std::error::Error;
use std::fmt;

/// The version of the header that this wrapper was written from.
///
/// It grows whenever a function, a kind, a refusal or a field comes or changes.
pub const VERSION: u32 = 1;

/// The version of the library that is linked. Where it isn't [`VERSION`], the two don't belong
/// together, and nothing else may be called: what the library answers may have another size. A host
/// says so at its start, and ends. (`bin/library` of the repository that this crate came with
/// writes the right one.)
///
/// ```
/// assert_eq!(banlothek::version(), banlothek::VERSION);
/// ```
pub fn version() -> u32 {
    // SAFETY: of what banlothek.h says that a caller owes:
    // - of pointers nothing: it takes none;
    // - floating point is as a process starts with it: Rust code may not change that.
    unsafe { banlothek_version() }
}

/// What is drawn. Later versions bring more kinds.
///
/// The floats go to the library by their bits, and the book compares them so: `0.0` and `-0.0` are
/// two requests. That is why requests have no `==` here.
///
/// ```
/// use banlothek::{draw, Refusal, Request};
///
/// let drawn = draw(&[3 << 62; 3], Request::Poisson { threshold: 0.5 })?;
/// assert_eq!((drawn.count, drawn.used), (2, 3));
/// # Ok::<(), Refusal>(())
/// ```
#[derive(Clone, Copy, Debug)]
#[non_exhaustive]
pub enum Request {
    /// How many are marked among things taken without replacement.
    Hypergeometric {
        /// N: how many things there are.
        total: u64,
        /// K: how many of them are marked.
        marked: u64,
        /// n: how many are taken.
        sample: u64,
    },
    /// Poisson, by its threshold.
    Poisson {
        /// T: e to the minus mean.
        threshold: f64,
    },
    /// How many failures come before the first success.
    Geometric {
        /// The probability of a success.
        p: f64,
    },
    /// The same with p one half, by the leading zeros of words.
    StandardGeometric,
}

impl Request {
    /// The kind's number and its parameters as the library takes them: floats by their bits, and 0
    /// where the kind has no more.
    fn parts(self) -> (u32, [u64; 3]) {
        match self {
            Request::Hypergeometric { total, marked, sample } => (1, [total, marked, sample]),
            Request::Poisson { threshold } => (2, [threshold.to_bits(), 0, 0]),
            Request::Geometric { p } => (3, [p.to_bits(), 0, 0]),
            Request::StandardGeometric => (4, [0, 0, 0]),
        }
    }
}

/// What was drawn. Later versions may bring more fields.
///
/// ```
/// use banlothek::{draw, Drawn, Request};
///
/// let Drawn { count, used, .. } = draw(&[u64::MAX, 0], Request::Geometric { p: 0.75 })?;
/// assert_eq!((count, used), (1, 2));
/// # Ok::<(), banlothek::Refusal>(())
/// ```
#[derive(Clone, Copy, Debug, PartialEq, Eq, Hash)]
#[non_exhaustive]
pub struct Drawn {
    /// The count.
    pub count: u64,
    /// How many words the draw used.
    pub used: u32,
}

/// What a delivery was answered: what was drawn for its serial, now or before. Later versions may
/// bring more fields.
///
/// ```
/// use banlothek::{deliver, Request};
///
/// let mut book = [0; 32];
/// let booked = deliver(&[3 << 62; 3], &mut book, 1, Request::Poisson { threshold: 0.5 })?;
/// assert_eq!((booked.count, booked.used, booked.copied), (2, 3, false));
/// # Ok::<(), banlothek::Refusal>(())
/// ```
#[derive(Clone, Copy, Debug, PartialEq, Eq, Hash)]
#[non_exhaustive]
pub struct Booked {
    /// The count.
    pub count: u64,
    /// How many words its draw used.
    pub used: u32,
    /// Whether this is a copy: the serial was booked before, and nothing was changed.
    pub copied: bool,
}

/// Why a call was refused.
///
/// A refusal is given exactly when its condition holds and none before it in the call's order does;
/// each function lists its order.
///
/// Later versions bring more. A number that this wrapper has no name for comes as
/// [`Refusal::Unknown`]; a later wrapper may name it, so keep and compare [`Refusal::number`].
///
/// ```
/// use banlothek::{draw, Refusal, Request};
///
/// let refusal = draw(&[0], Request::Geometric { p: 1.5 }).unwrap_err();
/// assert_eq!(refusal, Refusal::InvalidProbability);
/// assert_eq!(refusal.to_string(), "refused 8: p is not in 0 to 1");
/// ```
#[derive(Clone, Copy, Debug, PartialEq, Eq, Hash)]
#[non_exhaustive]
pub enum Refusal {
    /// 1: the tape has more than 1,048,576 words.
    TapeTooLong,
    /// 2: the first probability is 0 or not finite.
    PopulationTooLarge,
    /// 3: more are marked than the total.
    ProbabilityTooLarge,
    /// 4: the sample is larger than the total.
    SampleSizeTooLarge,
    /// 5: the total is above 1,048,576.
    CapExceeded,
    /// 6: (k+1)(n1+1) is 10(N+2) or more, by the reduced tray.
    ModeTooHigh,
    /// 7: the threshold is not in 2^-18 to 1.
    ThresholdOutside,
    /// 8: p is not in 0 to 1.
    InvalidProbability,
    /// 9: 31 squarings of 1 - p leave it above 0.5, and 1 - p is below 1.
    TooRare,
    /// 10: the draw calls for a word past the tape's end.
    Exhausted,
    /// 11: the book has more than 65,536 bytes.
    BookTooLong,
    /// 12: the book is not sound for this tape.
    BookDamaged,
    /// 13: the serial is 0 or above the next.
    SerialAhead,
    /// 14: the serial is booked, for another request.
    SerialReused,
    /// 15: the entry is longer than the room left.
    BookFull,
    /// 16: the strike is of more entries than there are.
    StrikeTooMany,
    /// 17: an entry is not what its request draws.
    RedrawDiffers {
        /// The lowest serial of such an entry.
        serial: u32,
    },
    /// 100: the number is no kind that the library knows ([`deliver_kind`]).
    NoSuchKind,
    /// Any other number, which no library of this version gives.
    Unknown {
        /// The number that the library gave.
        number: u32,
    },
}

impl Refusal {
    /// The refusal's number, as in the header.
    ///
    /// ```
    /// use banlothek::Refusal;
    ///
    /// assert_eq!(Refusal::SerialAhead.number(), 13);
    /// assert_eq!(Refusal::RedrawDiffers { serial: 4 }.number(), 17);
    /// assert_eq!(Refusal::Unknown { number: 4_000_000_000 }.number(), 4_000_000_000);
    /// ```
    pub const fn number(self) -> u32 {
        match self {
            Refusal::TapeTooLong => 1,
            Refusal::PopulationTooLarge => 2,
            Refusal::ProbabilityTooLarge => 3,
            Refusal::SampleSizeTooLarge => 4,
            Refusal::CapExceeded => 5,
            Refusal::ModeTooHigh => 6,
            Refusal::ThresholdOutside => 7,
            Refusal::InvalidProbability => 8,
            Refusal::TooRare => 9,
            Refusal::Exhausted => 10,
            Refusal::BookTooLong => 11,
            Refusal::BookDamaged => 12,
            Refusal::SerialAhead => 13,
            Refusal::SerialReused => 14,
            Refusal::BookFull => 15,
            Refusal::StrikeTooMany => 16,
            Refusal::RedrawDiffers { .. } => 17,
            Refusal::NoSuchKind => 100,
            Refusal::Unknown { number } => number,
        }
    }

    /// The refusal of a number; the serial goes with 17.
    fn numbered(number: u32, serial: u32) -> Refusal {
        match number {
            1 => Refusal::TapeTooLong,
            2 => Refusal::PopulationTooLarge,
            3 => Refusal::ProbabilityTooLarge,
            4 => Refusal::SampleSizeTooLarge,
            5 => Refusal::CapExceeded,
            6 => Refusal::ModeTooHigh,
            7 => Refusal::ThresholdOutside,
            8 => Refusal::InvalidProbability,
            9 => Refusal::TooRare,
            10 => Refusal::Exhausted,
            11 => Refusal::BookTooLong,
            12 => Refusal::BookDamaged,
            13 => Refusal::SerialAhead,
            14 => Refusal::SerialReused,
            15 => Refusal::BookFull,
            16 => Refusal::StrikeTooMany,
            17 => Refusal::RedrawDiffers { serial },
            100 => Refusal::NoSuchKind,
            _ => Refusal::Unknown { number },
        }
    }

    /// What is said of it beside its number; of 17 the serial is said before.
    const fn reason(self) -> &'static str {
        match self {
            Refusal::TapeTooLong => "the tape has more than 1,048,576 words",
            Refusal::PopulationTooLarge => "the first probability is 0 or not finite",
            Refusal::ProbabilityTooLarge => "more are marked than the total",
            Refusal::SampleSizeTooLarge => "the sample is larger than the total",
            Refusal::CapExceeded => "the total is above 1,048,576",
            Refusal::ModeTooHigh => "(k+1)(n1+1) is 10(N+2) or more, by the reduced tray",
            Refusal::ThresholdOutside => "the threshold is not in 2^-18 to 1",
            Refusal::InvalidProbability => "p is not in 0 to 1",
            Refusal::TooRare => "31 squarings of 1 - p leave it above 0.5",
            Refusal::Exhausted => "the draw calls for a word past the tape's end",
            Refusal::BookTooLong => "the book has more than 65,536 bytes",
            Refusal::BookDamaged => "the book is not sound for this tape",
            Refusal::SerialAhead => "the serial is 0 or above the next",
            Refusal::SerialReused => "the serial is booked, for another request",
            Refusal::BookFull => "the entry is longer than the room left",
            Refusal::StrikeTooMany => "the strike is of more entries than there are",
            Refusal::RedrawDiffers { .. } => "is not what its request draws",
            Refusal::NoSuchKind => "the library does not know this kind of draw",
            Refusal::Unknown { .. } => "a refusal that this wrapper does not know",
        }
    }
}

impl fmt::Display for Refusal {
    fn fmt(&self, f: &mut fmt::Formatter<'_>) -> fmt::Result {
        write!(f, "refused {}: ", self.number())?;
        if let Refusal::RedrawDiffers { serial } = self {
            write!(f, "serial {serial} ")?;
        }
        f.write_str(self.reason())
    }
}

impl Error for Refusal {}

/// Draws from the front of a tape.
///
/// An accepted draw looks at the words that it reports as used and at no others.
///
/// The order of refusals is 1, those of the request, 10. Those of a request: 3, 4, 5, 6, 2
/// (hypergeometric), 7 (Poisson), 8, 9 (geometric), none (standard geometric).
///
/// ```
/// use banlothek::{draw, Refusal, Request};
///
/// let tray = Request::Hypergeometric { total: 50, marked: 35, sample: 10 };
/// let drawn = draw(&[0], tray)?;
/// assert_eq!((drawn.count, drawn.used), (10, 1));
/// assert_eq!(draw(&[], tray), Err(Refusal::Exhausted));
/// # Ok::<(), Refusal>(())
/// ```
pub fn draw(tape: &[u64], request: Request) -> Result<Drawn, Refusal> {
    let (words, tape) = (tape.len(), tape.as_ptr());
    // SAFETY: what banlothek.h says that a caller owes:
    // - no pointer is null: a slice's isn't, also where its length is 0;
    // - the tape is aligned to 8 bytes: a slice of u64 is, on x86-64;
    // - the tape can be read for `words` words: the slice is lent for the whole call;
    // - a tape and a book that is written do not overlap: there is no book;
    // - nothing else writes the tape meanwhile: it is lent as shared;
    // - floating point is as a process starts with it: Rust code may not change that.
    let answer = unsafe {
        match request {
            Request::Hypergeometric { total, marked, sample } => {
                banlothek_draw_hypergeometric(tape, words, total, marked, sample)
            }
            Request::Poisson { threshold } => {
                banlothek_draw_poisson(tape, words, threshold.to_bits())
            }
            Request::Geometric { p } => banlothek_draw_geometric(tape, words, p.to_bits()),
            Request::StandardGeometric => banlothek_draw_standard_geometric(tape, words),
        }
    };
    answer.accepted().map(Answer::drawn)
}

/// Delivers a request into a book: it is drawn and booked, or answered as a copy.
///
/// A book has at most 65,536 bytes, all zero at first, and is written by [`deliver`] and [`strike`]
/// alone. The tape is the same for every call over one book.
///
/// A serial that is next (1, 2, 3, ..) is drawn from the tape at the book's place, and its entry is
/// written. A copy, the same serial with the same request to the bit, gets what was booked and
/// changes nothing; it is answered in a full book and at the tape's end too.
///
/// The order of refusals is 1, 11, 12, 13, then a copy is answered or refused by 14, then those of
/// the request as for [`draw`], 15, 10.
///
/// ```
/// use banlothek::{deliver, Refusal, Request};
///
/// let mut book = [0; 32];
/// let request = Request::Geometric { p: 0.75 };
/// let booked = deliver(&[u64::MAX, 0], &mut book, 1, request)?;
/// assert_eq!((booked.count, booked.used, booked.copied), (1, 2, false));
///
/// // A copy is answered, though the book is full; the serial for another request is not.
/// let again = deliver(&[u64::MAX, 0], &mut book, 1, request)?;
/// assert_eq!((again.count, again.used, again.copied), (1, 2, true));
/// let other = deliver(&[u64::MAX, 0], &mut book, 1, Request::Geometric { p: 0.7 });
/// assert_eq!(other, Err(Refusal::SerialReused));
/// # Ok::<(), Refusal>(())
/// ```
pub fn deliver(
    tape: &[u64],
    book: &mut [u8],
    serial: u32,
    request: Request,
) -> Result<Booked, Refusal> {
    let (kind, parameters) = request.parts();
    deliver_kind(tape, book, serial, kind, parameters)
}

/// The same by the kind's number, for a host that is handed one: a kind to come changes nothing
/// here.
///
/// Floats stand in the parameters by their bits; those that the kind doesn't have are not looked at.
/// A number that is no kind of the library's is refused by 100 before all else.
///
/// ```
/// use banlothek::{deliver_kind, Refusal};
///
/// let mut book = [0; 48];
/// let booked = deliver_kind(&[9 << 60], &mut book, 1, 1, [60, 24, 7])?;
/// assert_eq!((booked.count, booked.used, booked.copied), (3, 1, false));
/// let none = deliver_kind(&[9 << 60], &mut book, 2, 4_000_000_000, [60, 24, 7]);
/// assert_eq!(none, Err(Refusal::NoSuchKind));
/// # Ok::<(), Refusal>(())
/// ```
pub fn deliver_kind(
    tape: &[u64],
    book: &mut [u8],
    serial: u32,
    kind: u32,
    [a, b, c]: [u64; 3],
) -> Result<Booked, Refusal> {
    let (words, tape) = (tape.len(), tape.as_ptr());
    let (bytes, book) = (book.len(), book.as_mut_ptr());
    // SAFETY: what banlothek.h says that a caller owes:
    // - no pointer is null: a slice's isn't, also where its length is 0;
    // - the tape is aligned to 8 bytes: a slice of u64 is, on x86-64;
    // - the tape can be read for `words` words, the book read and written for `bytes` bytes: both
    //   slices are lent for the whole call, the book as exclusive;
    // - a tape and a book that is written do not overlap: an exclusive slice overlaps no other;
    // - nothing else writes either meanwhile: the tape is lent as shared, the book as exclusive;
    // - floating point is as a process starts with it: Rust code may not change that.
    let answer = unsafe { banlothek_deliver(tape, words, book, bytes, serial, kind, a, b, c) };
    answer.accepted().map(Answer::booked)
}

/// Takes the last `j` entries back, and answers how many are left.
///
/// Their bytes become 0, and no other byte changes. Their serials are fresh again, over the same
/// words. A strike that is sent again strikes again. With `j` 0 nothing changes, and the answer is
/// how many entries stand. The order of refusals is 1, 11, 12, 16.
///
/// ```
/// use banlothek::{deliver, strike, Refusal, Request};
///
/// let mut book = [0; 32];
/// deliver(&[1], &mut book, 1, Request::Geometric { p: 0.75 })?;
/// assert_eq!(strike(&[1], &mut book, 0), Ok(1));
/// assert_eq!(strike(&[1], &mut book, 2), Err(Refusal::StrikeTooMany));
/// assert_eq!(strike(&[1], &mut book, 1), Ok(0));
/// assert_eq!(book, [0; 32]);
/// # Ok::<(), Refusal>(())
/// ```
pub fn strike(tape: &[u64], book: &mut [u8], j: u64) -> Result<u64, Refusal> {
    let (words, tape) = (tape.len(), tape.as_ptr());
    let (bytes, book) = (book.len(), book.as_mut_ptr());
    // SAFETY: what banlothek.h says that a caller owes:
    // - no pointer is null: a slice's isn't, also where its length is 0;
    // - the tape is aligned to 8 bytes: a slice of u64 is, on x86-64;
    // - the tape can be read for `words` words, the book read and written for `bytes` bytes: both
    //   slices are lent for the whole call, the book as exclusive;
    // - a tape and a book that is written do not overlap: an exclusive slice overlaps no other;
    // - nothing else writes either meanwhile: the tape is lent as shared, the book as exclusive;
    // - floating point is as a process starts with it: Rust code may not change that.
    let answer = unsafe { banlothek_strike(tape, words, book, bytes, j) };
    answer.accepted().map(|accepted| accepted.count)
}

/// Draws every entry again from its place, and answers how many there are, if all agree.
///
/// Nothing is changed. The order of refusals is 1, 11, 12, 17; 17 has the lowest serial whose
/// request is refused or whose count or used differs.
///
/// ```
/// use banlothek::{deliver, redraw, Refusal, Request};
///
/// let mut book = [0; 48];
/// let tray = Request::Hypergeometric { total: 60, marked: 24, sample: 7 };
/// deliver(&[9 << 60], &mut book, 1, tray)?;
/// assert_eq!(redraw(&[9 << 60], &book), Ok(1));
/// // Over another tape the entry differs.
/// assert_eq!(redraw(&[1 << 62], &book), Err(Refusal::RedrawDiffers { serial: 1 }));
/// # Ok::<(), Refusal>(())
/// ```
pub fn redraw(tape: &[u64], book: &[u8]) -> Result<u64, Refusal> {
    let (words, tape) = (tape.len(), tape.as_ptr());
    let (bytes, book) = (book.len(), book.as_ptr());
    // SAFETY: what banlothek.h says that a caller owes:
    // - no pointer is null: a slice's isn't, also where its length is 0;
    // - the tape is aligned to 8 bytes: a slice of u64 is, on x86-64;
    // - the tape can be read for `words` words and the book for `bytes` bytes: both slices are lent
    //   for the whole call; this book is const, and needn't be written;
    // - a tape and a book that is written do not overlap: neither is written;
    // - nothing else writes either meanwhile: both are lent as shared;
    // - floating point is as a process starts with it: Rust code may not change that.
    let answer = unsafe { banlothek_redraw(tape, words, book, bytes) };
    answer.accepted().map(|accepted| accepted.count)
}

/// What every other function of the library answers: `banlothek_answer` of the header.
#[repr(C)]
struct Answer {
    refusal: u32,
    copied: u32,
    serial: u32,
    used: u32,
    count: u64,
}

impl Answer {
    /// The answer, if it isn't a refusal.
    fn accepted(self) -> Result<Answer, Refusal> {
        match self.refusal {
            0 => Ok(self),
            number => Err(Refusal::numbered(number, self.serial)),
        }
    }

    fn drawn(self) -> Drawn {
        Drawn { count: self.count, used: self.used }
    }

    fn booked(self) -> Booked {
        Booked { count: self.count, used: self.used, copied: self.copied != 0 }
    }
}

// The functions of include/banlothek.h, in its order.
extern "C" {
    fn banlothek_version() -> u32;
    fn banlothek_draw_hypergeometric(
        tape: *const u64,
        words: usize,
        total: u64,
        marked: u64,
        sample: u64,
    ) -> Answer;
    fn banlothek_draw_poisson(tape: *const u64, words: usize, threshold_bits: u64) -> Answer;
    fn banlothek_draw_geometric(tape: *const u64, words: usize, p_bits: u64) -> Answer;
    fn banlothek_draw_standard_geometric(tape: *const u64, words: usize) -> Answer;
    fn banlothek_deliver(
        tape: *const u64,
        words: usize,
        book: *mut u8,
        bytes: usize,
        serial: u32,
        kind: u32,
        a: u64,
        b: u64,
        c: u64,
    ) -> Answer;
    fn banlothek_strike(
        tape: *const u64,
        words: usize,
        book: *mut u8,
        bytes: usize,
        j: u64,
    ) -> Answer;
    fn banlothek_redraw(tape: *const u64, words: usize, book: *const u8, bytes: usize) -> Answer;
}

/// The examples of this crate's README, and of the repository's, are run with the others.
#[cfg(doctest)]
#[doc = include_str!("../README.md")]
#[doc = include_str!("../../../README.md")]
struct Readme;

#[cfg(test)]
mod tests {
    use super::*;
    use std::mem::{align_of, size_of};
    use std::ptr::addr_of;

    fn refused(refusal: u32, serial: u32) -> Answer {
        Answer { refusal, copied: 0, serial, used: 0, count: 0 }
    }

    #[test]
    fn the_struct_is_laid_out_as_in_c() {
        let answer = refused(0, 0);
        let start = addr_of!(answer) as usize;
        assert_eq!(size_of::<Answer>(), 24);
        assert_eq!(align_of::<Answer>(), align_of::<u64>());
        assert_eq!(addr_of!(answer.refusal) as usize - start, 0);
        assert_eq!(addr_of!(answer.copied) as usize - start, 4);
        assert_eq!(addr_of!(answer.serial) as usize - start, 8);
        assert_eq!(addr_of!(answer.used) as usize - start, 12);
        assert_eq!(addr_of!(answer.count) as usize - start, 16);
    }

    #[test]
    fn a_tape_is_aligned_to_8_bytes() {
        assert_eq!(align_of::<u64>(), 8);
    }

    #[test]
    fn every_number_of_the_header_has_its_name() {
        for number in (1..=17).chain([100]) {
            let refusal = refused(number, 4).accepted().err().unwrap();
            assert_eq!(refusal.number(), number);
            assert_ne!(refusal, Refusal::Unknown { number });
            let said = refusal.to_string();
            assert!(said.starts_with(&format!("refused {number}: ")));
        }
    }

    #[test]
    fn the_serial_goes_with_17() {
        let refusal = refused(17, 4).accepted().err().unwrap();
        assert_eq!(refusal, Refusal::RedrawDiffers { serial: 4 });
        assert_eq!(refusal.to_string(), "refused 17: serial 4 is not what its request draws");
    }

    /// Whether this wrapper knows the number or not: what comes out is a value that has it.
    #[test]
    fn any_number_is_a_refusal_of_that_number() {
        for number in [18, 99, 101, 4_000_000_000, u32::MAX] {
            let refusal = refused(number, 4).accepted().err().unwrap();
            assert_eq!(refusal.number(), number);
            let said = refusal.to_string();
            assert!(said.starts_with(&format!("refused {number}: ")));
        }
    }

    #[test]
    fn a_number_that_has_no_name() {
        let number = 4_000_000_000;
        let refusal = refused(number, 4).accepted().err().unwrap();
        assert_eq!(refusal, Refusal::Unknown { number });
        assert_eq!(
            refusal.to_string(),
            "refused 4000000000: a refusal that this wrapper does not know"
        );
    }

    #[test]
    fn a_request_by_its_parts() {
        let tray = Request::Hypergeometric { total: 60, marked: 24, sample: 7 };
        assert_eq!(tray.parts(), (1, [60, 24, 7]));
        // A signalling NaN, whose bits pass too.
        for bits in [0x3fe0_0000_0000_0000, 1 << 63, 0xfff0_0000_0000_0001] {
            let (threshold, p) = (f64::from_bits(bits), f64::from_bits(bits));
            assert_eq!(Request::Poisson { threshold }.parts(), (2, [bits, 0, 0]));
            assert_eq!(Request::Geometric { p }.parts(), (3, [bits, 0, 0]));
        }
        assert_eq!(Request::StandardGeometric.parts(), (4, [0, 0, 0]));
    }

    /// What a request of a later wrapper meets in this library, whatever else is wrong with it.
    #[test]
    fn a_kind_that_the_library_does_not_know() {
        let long_tape = vec![0; 1_048_577];
        let mut book = [7; 32];
        for kind in [0, 4_000_000_000, u32::MAX] {
            for tape in [&[1][..], &long_tape] {
                let answer = deliver_kind(tape, &mut book, 1, kind, [0; 3]);
                assert_eq!(answer, Err(Refusal::NoSuchKind));
            }
        }
        assert_eq!(book, [7; 32]);
    }
}
