//! Every function through the wrapper: what it accepts, every refusal that it can give, and that a
//! refusal changes no byte.

use banlothek::Refusal::*;
use banlothek::Request::{Geometric, Poisson, StandardGeometric};
use banlothek::{redraw, strike, version, Refusal, Request, VERSION};

const TOP: u64 = 1 << 63;
const THREE_QUARTERS: u64 = 3 << 62;
const LAST: u64 = u64::MAX;

const ABOVE_ONE: f64 = 1.0 + f64::EPSILON;
const MOST_WORDS: usize = 1_048_576;
const MOST_BYTES: usize = 65_536;

/// NaNs of either sign, quiet and signalling, with low and high bits.
fn nans() -> impl Iterator<Item = f64> {
    [
        0x7ff8_0000_0000_0000,
        0x7ff0_0000_0000_0001,
        0x7fff_ffff_ffff_ffff,
        0xfff8_0000_0000_0000,
        0xfff0_0000_0000_0001,
    ]
    .into_iter()
    .map(f64::from_bits)
}

fn tray(total: u64, marked: u64, sample: u64) -> Request {
    Request::Hypergeometric { total, marked, sample }
}

fn poisson(threshold: f64) -> Request {
    Poisson { threshold }
}

fn geometric(p: f64) -> Request {
    Geometric { p }
}

/// A draw by its count and the words that it used.
fn draw(tape: &[u64], request: Request) -> Result<(u64, u32), Refusal> {
    banlothek::draw(tape, request).map(|drawn| (drawn.count, drawn.used))
}

fn drawn(count: u64, used: u32) -> Result<(u64, u32), Refusal> {
    Ok((count, used))
}

/// A delivery by its count, the words that its draw used, and whether it is a copy.
fn deliver(
    tape: &[u64],
    book: &mut [u8],
    serial: u32,
    request: Request,
) -> Result<(u64, u32, bool), Refusal> {
    banlothek::deliver(tape, book, serial, request)
        .map(|booked| (booked.count, booked.used, booked.copied))
}

fn fresh(count: u64, used: u32) -> Result<(u64, u32, bool), Refusal> {
    Ok((count, used, false))
}

fn copy(count: u64, used: u32) -> Result<(u64, u32, bool), Refusal> {
    Ok((count, used, true))
}

#[test]
fn the_version_is_that_of_the_header() {
    assert_eq!(version(), VERSION);
}

// ---- draws

#[test]
fn hypergeometric_draws() {
    assert_eq!(draw(&[0], tray(60, 24, 7)), drawn(0, 1));
    assert_eq!(draw(&[0], tray(50, 35, 10)), drawn(10, 1));
    assert_eq!(draw(&[0], tray(10, 3, 6)), drawn(3, 1));
    assert_eq!(draw(&[0], tray(10, 8, 7)), drawn(5, 1));
    assert_eq!(draw(&[TOP], tray(2, 1, 1)), drawn(0, 1));
    assert_eq!(draw(&[TOP + 2048], tray(2, 1, 1)), drawn(1, 1));
    assert_eq!(draw(&[LAST], tray(9, 3, 4)), drawn(3, 1));
    assert_eq!(draw(&[LAST], tray(0, 0, 0)), drawn(0, 1));
    assert_eq!(draw(&[0], tray(98, 38, 24)), drawn(0, 1));
}

#[test]
fn hypergeometric_refusals() {
    assert_eq!(draw(&[0], tray(10, 11, 12)), Err(ProbabilityTooLarge));
    assert_eq!(draw(&[0], tray(10, 3, 11)), Err(SampleSizeTooLarge));
    assert_eq!(draw(&[0], tray(1_048_577, 3, 3)), Err(CapExceeded));
    assert_eq!(draw(&[0], tray(98, 39, 24)), Err(ModeTooHigh));
    assert_eq!(draw(&[0], tray(1_048_576, 3000, 3000)), Err(PopulationTooLarge));
    assert_eq!(draw(&[], tray(60, 24, 7)), Err(Exhausted));
    assert_eq!(draw(&[], tray(LAST, LAST, LAST)), Err(CapExceeded));
}

#[test]
fn poisson_draws_and_refusals() {
    let words = [THREE_QUARTERS; 3];
    let least = 1.0 / 262_144.0;
    assert_eq!(draw(&words, poisson(0.5)), drawn(2, 3));
    assert_eq!(draw(&words, poisson(1.0)), drawn(0, 1));
    assert_eq!(draw(&words[..2], poisson(0.5)), Err(Exhausted));
    assert_eq!(draw(&words, poisson(least)), Err(Exhausted));
    let below = f64::from_bits(least.to_bits() - 1);
    for threshold in [below, 0.0, -0.5, ABOVE_ONE, f64::INFINITY] {
        assert_eq!(draw(&words, poisson(threshold)), Err(ThresholdOutside));
    }
    for nan in nans() {
        assert_eq!(draw(&words, poisson(nan)), Err(ThresholdOutside));
    }
}

#[test]
fn geometric_draws() {
    assert_eq!(draw(&[TOP, 1, 0], geometric(0.5)), drawn(1, 3));
    assert_eq!(draw(&[TOP, 1, TOP, 0, TOP], geometric(0.5)), drawn(0, 5));
    assert_eq!(draw(&[LAST, 0], geometric(0.75)), drawn(1, 2));
    assert_eq!(draw(&[THREE_QUARTERS], geometric(0.75)), drawn(0, 1));
    for p in [0.0, -0.0, f64::EPSILON / 4.0] {
        assert_eq!(draw(&[], geometric(p)), drawn(LAST, 0));
    }
}

#[test]
fn geometric_refusals() {
    let below_zero = f64::from_bits(TOP + 1);
    for p in [ABOVE_ONE, below_zero, -1.0, f64::NEG_INFINITY] {
        assert_eq!(draw(&[LAST, 0], geometric(p)), Err(InvalidProbability));
    }
    for nan in nans() {
        assert_eq!(draw(&[LAST, 0], geometric(nan)), Err(InvalidProbability));
    }
    assert_eq!(draw(&[], geometric(0.5_f64.powi(32))), Err(TooRare));
    assert_eq!(draw(&[], geometric(0.5_f64.powi(31))), Err(Exhausted));
    assert_eq!(draw(&[TOP, 1], geometric(0.5)), Err(Exhausted));
}

#[test]
fn standard_geometric_draws_and_refusals() {
    assert_eq!(draw(&[0, TOP], StandardGeometric), drawn(64, 2));
    assert_eq!(draw(&[1], StandardGeometric), drawn(63, 1));
    assert_eq!(draw(&[0], StandardGeometric), Err(Exhausted));
    assert_eq!(draw(&[], StandardGeometric), Err(Exhausted));
}

#[test]
fn a_tape_too_long_comes_first() {
    let tape = vec![LAST; MOST_WORDS + 1];
    for request in [tray(1, 2, 0), poisson(f64::NAN), geometric(f64::NAN), StandardGeometric] {
        assert_eq!(draw(&tape, request), Err(TapeTooLong));
    }
    assert_eq!(draw(&tape[1..], tray(9, 3, 4)), drawn(3, 1));
}

// ---- the book

/// One word is for serial 1, three, two and one for the next; none is left.
const TAPE: [u64; 7] = [0, THREE_QUARTERS, THREE_QUARTERS, THREE_QUARTERS, LAST, 0, 1];

/// The bytes of four entries: a tray, a Poisson and a geometric pull, and another tray.
const ROOM: usize = 48 + 32 + 32 + 48;

/// A book of some bytes, into which the four were delivered.
fn filled(bytes: usize) -> Vec<u8> {
    let mut book = vec![0; bytes];
    assert_eq!(deliver(&TAPE, &mut book, 1, tray(50, 35, 10)), fresh(10, 1));
    assert_eq!(deliver(&TAPE, &mut book, 2, poisson(0.5)), fresh(2, 3));
    assert_eq!(deliver(&TAPE, &mut book, 3, geometric(0.75)), fresh(1, 2));
    assert_eq!(deliver(&TAPE, &mut book, 4, tray(10, 8, 7)), fresh(5, 1));
    book
}

/// What a delivery is refused by. It changes no byte.
fn refused(tape: &[u64], book: &mut [u8], serial: u32, request: Request) -> Refusal {
    let kept = book.to_vec();
    let refusal = deliver(tape, book, serial, request).unwrap_err();
    assert_eq!(book, kept);
    refusal
}

#[test]
fn copies_get_what_was_booked() {
    let mut book = filled(ROOM);
    let kept = book.clone();
    assert_eq!(deliver(&TAPE, &mut book, 1, tray(50, 35, 10)), copy(10, 1));
    assert_eq!(deliver(&TAPE, &mut book, 2, poisson(0.5)), copy(2, 3));
    assert_eq!(deliver(&TAPE, &mut book, 3, geometric(0.75)), copy(1, 2));
    assert_eq!(deliver(&TAPE, &mut book, 4, tray(10, 8, 7)), copy(5, 1));
    assert_eq!(book, kept);
}

#[test]
fn a_serial_is_for_one_request() {
    let mut book = filled(ROOM);
    for (serial, request) in [
        (1, tray(50, 10, 35)),
        (2, geometric(0.5)),
        (3, geometric(1.0)),
        (3, geometric(f64::NAN)),
        (4, poisson(0.5)),
    ] {
        assert_eq!(refused(&TAPE, &mut book, serial, request), SerialReused);
    }
}

#[test]
fn floats_go_by_their_bits() {
    let mut book = [0; 64];
    assert_eq!(deliver(&[], &mut book, 1, geometric(-0.0)), fresh(LAST, 0));
    assert_eq!(refused(&[], &mut book, 1, geometric(0.0)), SerialReused);
    assert_eq!(deliver(&[], &mut book, 1, geometric(-0.0)), copy(LAST, 0));
    assert_eq!(book[24..32], (-0.0_f64).to_le_bytes());
}

#[test]
fn serials_ahead() {
    let mut book = filled(ROOM);
    for (serial, request) in
        [(0, tray(50, 35, 10)), (6, poisson(0.5)), (7, geometric(0.5)), (u32::MAX, geometric(0.5))]
    {
        assert_eq!(refused(&TAPE, &mut book, serial, request), SerialAhead);
    }
}

/// One byte of room too few is BookFull; in the room that it needs the draw finds no word.
#[test]
fn a_full_book_and_a_tape_at_its_end() {
    for (length, request) in [(48, tray(50, 35, 10)), (32, poisson(0.5)), (32, geometric(0.5))] {
        let mut book = filled(ROOM + length);
        let short = &mut book[..ROOM + length - 1];
        assert_eq!(refused(&TAPE, short, 5, request), BookFull);
        assert_eq!(refused(&TAPE, &mut book, 5, request), Exhausted);
    }
    assert_eq!(refused(&[1], &mut [], 1, geometric(0.75)), BookFull);
}

/// The standard geometric pull over the four, a byte of room or a word too few, and its copy.
#[test]
fn standard_geometric_deliveries() {
    let tape = [&TAPE[..], &[1]].concat();
    let mut book = filled(ROOM + 24);
    assert_eq!(refused(&TAPE, &mut book, 1, StandardGeometric), SerialReused);
    assert_eq!(refused(&TAPE, &mut book, 6, StandardGeometric), SerialAhead);
    let short = &mut book[..ROOM + 23];
    assert_eq!(refused(&TAPE, short, 5, StandardGeometric), BookFull);
    assert_eq!(refused(&TAPE, &mut book, 5, StandardGeometric), Exhausted);

    assert_eq!(deliver(&tape, &mut book, 5, StandardGeometric), fresh(63, 1));
    assert_eq!(deliver(&tape, &mut book, 5, StandardGeometric), copy(63, 1));
    assert_eq!(refused(&tape, &mut book, 5, poisson(0.5)), SerialReused);
    assert_eq!(redraw(&tape, &book), Ok(5));
    assert_eq!(strike(&tape, &mut book, 1), Ok(4));
    assert_eq!(book, filled(ROOM + 24));
}

#[test]
fn parameters_come_before_the_room() {
    let mut book = filled(ROOM);
    for (request, refusal) in [
        (tray(10, 11, 12), ProbabilityTooLarge),
        (tray(10, 3, 11), SampleSizeTooLarge),
        (tray(1_048_577, 3, 3), CapExceeded),
        (tray(98, 39, 24), ModeTooHigh),
        (tray(1_048_576, 3000, 3000), PopulationTooLarge),
        (poisson(ABOVE_ONE), ThresholdOutside),
        (geometric(f64::NAN), InvalidProbability),
        (geometric(0.5_f64.powi(32)), TooRare),
    ] {
        assert_eq!(refused(&TAPE, &mut book, 5, request), refusal);
    }
}

/// Every call over a tape and a book for which each is refused by the same.
fn all_refused(tape: &[u64], book: &mut [u8], refusal: Refusal) {
    let kept = book.to_vec();
    assert_eq!(refused(tape, book, 1, tray(50, 35, 10)), refusal);
    assert_eq!(refused(tape, book, 1, poisson(0.5)), refusal);
    assert_eq!(refused(tape, book, 1, geometric(0.5)), refusal);
    assert_eq!(refused(tape, book, 1, StandardGeometric), refusal);
    assert_eq!(strike(tape, book, 0), Err(refusal));
    assert_eq!(strike(tape, book, 9), Err(refusal));
    assert_eq!(redraw(tape, book), Err(refusal));
    assert_eq!(book, kept);
}

#[test]
fn limits_and_damage() {
    let long_tape = vec![0; MOST_WORDS + 1];
    let mut long_book = filled(MOST_BYTES);
    assert_eq!(redraw(&TAPE, &long_book), Ok(4));
    long_book.push(0);
    all_refused(&long_tape, &mut long_book, TapeTooLong);
    all_refused(&TAPE, &mut long_book, BookTooLong);

    let mut book = filled(ROOM + 24);
    all_refused(&TAPE[..6], &mut book, BookDamaged);
    book[ROOM] = 1;
    all_refused(&TAPE, &mut book, BookDamaged);
}

#[test]
fn redraws() {
    let mut book = filled(ROOM);
    assert_eq!(redraw(&TAPE, &book), Ok(4));
    book[48 + 32 + 16] += 1; // the count of serial 3
    assert_eq!(redraw(&TAPE, &book), Err(RedrawDiffers { serial: 3 }));
    book[48 + 16] += 1; // the count of serial 2
    assert_eq!(redraw(&TAPE, &book), Err(RedrawDiffers { serial: 2 }));
    assert_eq!(redraw(&[], &[]), Ok(0));
}

#[test]
fn struck_and_fresh_again() {
    let mut book = filled(ROOM);
    let kept = book.clone();
    assert_eq!(strike(&TAPE, &mut book, 5), Err(StrikeTooMany));
    assert_eq!(strike(&TAPE, &mut book, LAST), Err(StrikeTooMany));
    assert_eq!(strike(&TAPE, &mut book, 0), Ok(4));
    assert_eq!(book, kept);

    assert_eq!(strike(&TAPE, &mut book, 2), Ok(2));
    assert_eq!(book[..80], kept[..80]);
    assert_eq!(book[80..], [0; ROOM - 80]);
    assert_eq!(refused(&TAPE, &mut book, 4, tray(10, 8, 7)), SerialAhead);

    assert_eq!(deliver(&TAPE, &mut book, 3, geometric(0.75)), fresh(1, 2));
    assert_eq!(deliver(&TAPE, &mut book, 4, tray(10, 8, 7)), fresh(5, 1));
    assert_eq!(book, kept);

    assert_eq!(strike(&TAPE, &mut book, 4), Ok(0));
    assert_eq!(book, [0; ROOM]);
    assert_eq!(redraw(&TAPE, &book), Ok(0));
}

/// A book of 24 bytes, after one standard draw over the word 1.
#[test]
fn the_bytes_of_an_entry() {
    let mut book = [0; 24];
    let entry = [0x18, 0, 4, 0, 1, 0, 0, 0, 0, 0, 0, 0, 1, 0, 0, 0, 0x3f, 0, 0, 0, 0, 0, 0, 0];
    assert_eq!(deliver(&[1], &mut book, 1, StandardGeometric), fresh(63, 1));
    assert_eq!(book, entry);
}

#[test]
fn a_refusal_is_an_error() {
    let refusal: Box<dyn std::error::Error + Send + Sync> = SerialAhead.into();
    assert_eq!(refusal.to_string(), "refused 13: the serial is 0 or above the next");
}
