//! A case, the entry that it is marked with, and how cases are written. README.md has the format.

use std::io::{self, Write};

/// The words of a block.
const BLOCK: usize = 8_192;

/// The words of a case before its tape.
const HEADER: usize = 9;

/// A population above this is refused by the other side.
pub const CAP: u64 = 1_048_576;

/// What a case holds, by its number: a draw of a kind has the kind's own, and what isn't one draw of
/// a kind a number above 1,000, so that no kind to come has it.
#[derive(Clone, Copy, Debug, PartialEq)]
pub enum Kind {
    Hypergeometric = 1,
    Poisson = 2,
    Geometric = 3,
    Standard = 4,
    Kept = 1_001,
    Fraction = 1_002,
}

/// The kinds in the order in which they are reported, each with its name there.
const KINDS: [(Kind, &str); 6] = [
    (Kind::Hypergeometric, "hypergeometric"),
    (Kind::Kept, "kept"),
    (Kind::Poisson, "poisson"),
    (Kind::Geometric, "geometric"),
    (Kind::Standard, "standard"),
    (Kind::Fraction, "fraction"),
];

/// What the Rust did, by its number in a case.
#[derive(Clone, Copy, Debug, PartialEq)]
pub enum Act {
    Drew = 0,
    TapeEnded = 1,
    ProbabilityTooLarge = 2,
    SampleSizeTooLarge = 3,
    PopulationTooLarge = 4,
    InvalidProbability = 5,
    ChoseRejection = 6,
    ChoseLargeK = 7,
}

/// The entry of docs/DIFFERENCES.md that says that a case differs, by its number in a case.
#[derive(Clone, Copy, Debug, PartialEq)]
pub enum Entry {
    None = 0,
    Support = 1,
    LargeK = 4,
    Threshold = 5,
    Cap = 9,
    Rejection = 10,
}

/// The entries in the order in which they are reported.
const ENTRIES: [Entry; 6] = [
    Entry::None,
    Entry::Support,
    Entry::LargeK,
    Entry::Threshold,
    Entry::Cap,
    Entry::Rejection,
];

/// A request, the tape, and what the Rust did. Of a kept tray `tape` has pairs: a word, and the
/// count over it. A fraction has its word and its bits as parameters, and nothing else.
pub struct Case {
    pub kind: Kind,
    pub parameters: [u64; 3],
    pub act: Act,
    pub count: u64,
    pub used: u64,
    pub tape: Vec<u64>,
}

impl Case {
    /// The entry that lists this case, by the oracle's own test. A population over the cap is
    /// refused before a method is chosen or anything is drawn, so it comes first.
    pub fn entry(&self) -> Entry {
        let is_tray = matches!(self.kind, Kind::Hypergeometric | Kind::Kept);
        if is_tray && is_over_cap(self.parameters) {
            return Entry::Cap;
        }
        match (self.kind, self.act) {
            (_, Act::ChoseRejection) => Entry::Rejection,
            (_, Act::ChoseLargeK) => Entry::LargeK,
            (Kind::Hypergeometric, Act::Drew) => support_entry(self.parameters, self.count),
            (Kind::Poisson, _) => threshold_entry(self.parameters),
            _ => Entry::None,
        }
    }

    /// The draws that a comparison counts: each pair of a kept tray, and one for anything else.
    pub fn draws(&self) -> u64 {
        match self.kind {
            Kind::Kept => (self.tape.len() as u64 / 2).max(1),
            _ => 1,
        }
    }

    /// Whether this is a kept tray that is drawn from on the other side, and no draw of it is here.
    fn lacks_pairs(&self) -> bool {
        let is_kept = self.kind == Kind::Kept && self.act == Act::Drew;
        is_kept && self.entry() == Entry::None && self.tape.is_empty()
    }

    fn header(&self) -> [u64; HEADER] {
        let [first, second, third] = self.parameters;
        [
            (HEADER + self.tape.len()) as u64,
            self.kind as u64,
            first,
            second,
            third,
            self.act as u64,
            self.count,
            self.used,
            self.entry() as u64,
        ]
    }
}

fn is_over_cap([total, marked, sample]: [u64; 3]) -> bool {
    marked <= total && sample <= total && total > CAP
}

/// Whether a tray can have this count. The sums are wide: a parameter may be any number.
fn support_entry([total, marked, sample]: [u64; 3], count: u64) -> Entry {
    let least = (u128::from(marked) + u128::from(sample)).saturating_sub(u128::from(total));
    if u128::from(count) < least || count > marked.min(sample) {
        Entry::Support
    } else {
        Entry::None
    }
}

/// Whether a threshold is outside its range.
fn threshold_entry([bits, _, _]: [u64; 3]) -> Entry {
    if is_in_range(f64::from_bits(bits)) {
        Entry::None
    } else {
        Entry::Threshold
    }
}

/// Whether a threshold is in 2^-18 to 1; a NaN isn't.
pub fn is_in_range(threshold: f64) -> bool {
    (1.0 / 262_144.0..=1.0).contains(&threshold)
}

/// What was written of one kind.
#[derive(Clone, Copy, Default)]
struct Tally {
    cases: u64,
    draws: u64,
    by_entry: [u64; ENTRIES.len()],
}

impl Tally {
    fn count(&mut self, case: &Case) {
        self.cases += 1;
        self.draws += case.draws();
        if case.kind == Kind::Kept && case.act == Act::Drew && case.entry() == Entry::None {
            for pair in case.tape.chunks_exact(2) {
                self.count_entry(support_entry(case.parameters, pair[1]));
            }
        } else {
            self.count_entry(case.entry());
        }
    }

    fn count_entry(&mut self, entry: Entry) {
        let place = ENTRIES.iter().position(|&known| known == entry);
        self.by_entry[place.expect("every entry is in ENTRIES")] += 1;
    }

    fn line(&self, name: &str) -> String {
        let mut line = format!("{name}: cases {} draws {}", self.cases, self.draws);
        for (entry, count) in ENTRIES.iter().zip(self.by_entry) {
            line += &format!(", entry {} {count}", *entry as u64);
        }
        line
    }

    fn add(&mut self, other: &Tally) {
        self.cases += other.cases;
        self.draws += other.draws;
        for (sum, more) in self.by_entry.iter_mut().zip(other.by_entry) {
            *sum += more;
        }
    }
}

/// Writes cases in blocks, and counts them.
pub struct Writer<W: Write> {
    out: W,
    block: Vec<u64>,
    tallies: [Tally; KINDS.len()],
}

impl<W: Write> Writer<W> {
    pub fn new(out: W) -> Self {
        Writer {
            out,
            block: Vec::with_capacity(BLOCK),
            tallies: Default::default(),
        }
    }

    /// Adds a case. No case reaches over a block's end, so what is left of one may become zeros.
    pub fn put(&mut self, case: &Case) -> io::Result<()> {
        let length = HEADER + case.tape.len();
        assert!(length <= BLOCK, "a case is longer than a block");
        assert!(!case.lacks_pairs(), "a kept tray has no pairs");
        if self.block.len() + length > BLOCK {
            self.block.resize(BLOCK, 0);
            self.write_block()?;
        }
        self.block.extend(case.header());
        self.block.extend(&case.tape);
        let place = KINDS.iter().position(|&(kind, _)| kind == case.kind);
        self.tallies[place.expect("every kind is in KINDS")].count(case);
        Ok(())
    }

    fn write_block(&mut self) -> io::Result<()> {
        let bytes: Vec<u8> = self.block.iter().flat_map(|w| w.to_le_bytes()).collect();
        self.block.clear();
        self.out.write_all(&bytes)
    }

    /// Writes the last block, as short as it is. Gives the totals: a line for each kind that there
    /// was, and one for all.
    pub fn finish(mut self) -> io::Result<String> {
        self.write_block()?;
        self.out.flush()?;
        let mut all = Tally::default();
        let mut lines = String::new();
        for ((_, name), tally) in KINDS.iter().zip(&self.tallies) {
            if tally.cases > 0 {
                all.add(tally);
                lines += &format!("{}\n", tally.line(name));
            }
        }
        Ok(lines + &all.line("all"))
    }
}
