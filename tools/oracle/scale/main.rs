//! The Rust and the archive in one process, given the same cases by the million.
//!
//!     scale [--threads N] [--thousands N] [--tokens N] [--seed N] [--only PART] [FONTS..]
//!
//! `--thousands` is how many random cases each random part has, `--tokens` the length of exhaustive charstrings.
//! Every glyph is converted in both readings, and counted once as a case.
//! Every answer, every byte of the output, both stores and the guards around them are compared; inputs end where memory ends. Where the Rust has no
//! limit, document 01's numbers are taken from the Rust's state after each step. A difference prints the smallest case found.
//! The Rust has no box: there the oracle's own machine answers.

#[allow(dead_code)]
mod archive;
#[allow(dead_code)]
mod boxes;
mod case;
#[allow(dead_code)]
mod charstring;
#[allow(dead_code)]
mod cipher;
#[allow(dead_code)]
mod doubles;
#[allow(dead_code)]
mod encoding;
mod fence;
#[allow(dead_code)]
mod font;
#[allow(dead_code)]
mod generate;
#[allow(dead_code)]
mod geometry;
#[allow(dead_code)]
mod glyphs;
mod lent;
#[allow(dead_code)]
mod machine;
mod others;
mod parts;
#[allow(dead_code)]
mod random;
mod strict;
#[allow(dead_code)]
mod type1_to_type2;
#[allow(dead_code)]
mod vector;

use case::{Case, Lent};
use random::Random;
use std::time::Instant;

/// What the parts are given.
pub struct Settings {
    pub thousands: u64,
    pub tokens: usize,
    pub seed: u64,
    pub fonts: Vec<font::Font>,
}

/// One of several workers that share a part.
pub struct Worker<'a> {
    pub settings: &'a Settings,
    pub number: u64,
    pub of: u64,
    pub random: Random,
    pub lent: Lent,
    pub tally: Tally,
}

/// Differences after which a worker stops a part.
const ENOUGH: u64 = 3;

#[derive(Default)]
pub struct Tally {
    pub cases: u64,
    pub different: u64,
    /// How often each number was answered.
    pub numbers: [u64; 23],
    /// How often in the strict reading.
    pub strict: [u64; 23],
}

impl Tally {
    fn add(&mut self, other: &Self) {
        self.cases += other.cases;
        self.different += other.different;
        for (sum, more) in [(&mut self.numbers, &other.numbers), (&mut self.strict, &other.strict)] {
            for (a, b) in sum.iter_mut().zip(more) {
                *a += b;
            }
        }
    }
}

impl Worker<'_> {
    /// The share of the random cases.
    pub fn share(&self) -> u64 {
        self.settings.thousands * 1000 / self.of
    }

    /// It takes every case whose index is its own.
    pub fn takes(&self, index: u64) -> bool {
        index % self.of == self.number
    }

    pub fn has_enough(&self) -> bool {
        self.tally.different >= ENOUGH
    }

    pub fn count(&mut self, number: u64) {
        self.tally.cases += 1;
        self.tally.numbers[number as usize] += 1;
    }

    pub fn report(&mut self, text: &str) {
        self.tally.cases += 1;
        self.say(text);
    }

    fn say(&mut self, text: &str) {
        self.tally.different += 1;
        println!("DIFFERENT, this worker's case {}: {text}", self.tally.cases);
    }

    /// A case in both readings, counted once.
    pub fn compare(&mut self, case: &Case, outcome: &case::Outcome) {
        for strict in [false, true] {
            let expected = case.expected(outcome, strict);
            match self.lent.call(case, &expected, strict) {
                Ok(number) if strict => self.tally.strict[number as usize] += 1,
                Ok(number) => self.count(number),
                Err(why) => {
                    let small = case.smallest(&mut self.lent, strict);
                    let of_small = self.lent.differs(&small, strict).unwrap_or_default();
                    self.tally.cases += u64::from(!strict);
                    self.say(&format!(
                        "{why}; the smallest case found: {of_small}\n{}",
                        small.describe(strict)
                    ));
                }
            }
        }
    }

    /// A case in its own rooms.
    pub fn compare_case(&mut self, case: &Case) {
        let outcome = case.outcome();
        self.compare(case, &outcome);
    }
}

/// A part: its name and what a worker does of it.
type Part = (&'static str, fn(&mut Worker));

const PARTS: [Part; 18] = [
    ("bytes", parts::bytes),
    ("tokens", parts::tokens),
    ("phrases", parts::phrases),
    ("stated", parts::stated),
    ("random", parts::random),
    ("damaged", parts::damaged),
    ("noise", parts::noise),
    ("limits", parts::limits),
    ("rooms", parts::rooms),
    ("long", parts::long),
    ("banks", parts::banks),
    ("fonts", parts::fonts),
    ("finish", others::finish),
    ("widths", others::widths),
    ("decrypt", others::decrypt),
    ("box", others::glyph_box),
    ("groups", parts::groups),
    ("strict", parts::strict),
];

fn main() {
    let mut words = std::env::args().skip(1);
    let (mut threads, mut only) = (1, Vec::new());
    let mut settings = Settings {
        thousands: 100,
        tokens: 3,
        seed: 1,
        fonts: Vec::new(),
    };
    let mut paths = Vec::new();
    while let Some(word) = words.next() {
        let mut value = || words.next().expect("a value");
        match word.as_str() {
            "--threads" => threads = value().parse().expect("a count"),
            "--thousands" => settings.thousands = value().parse().expect("a count"),
            "--tokens" => settings.tokens = value().parse().expect("a count"),
            "--seed" => settings.seed = value().parse().expect("a number"),
            "--only" => only.push(value()),
            _ => paths.push(word),
        }
    }
    settings.fonts = font::read_all(&paths);
    let glyphs: usize = settings.fonts.iter().map(|f| f.glyphs.len()).sum();
    println!(
        "{} fonts, {glyphs} glyphs; seed {}\n",
        settings.fonts.len(),
        settings.seed
    );
    let mut total = Tally::default();
    let begin = Instant::now();
    println!("| part | cases | converted | refused | strict | 22 | seconds | different |");
    println!("|---|---|---|---|---|---|---|---|");
    for (at, (name, part)) in PARTS.iter().enumerate() {
        if !only.is_empty() && !only.iter().any(|o| o == name) {
            continue;
        }
        let start = Instant::now();
        let mut sum = Tally::default();
        std::thread::scope(|scope| {
            let workers: Vec<_> = (0..threads)
                .map(|number| {
                    let settings = &settings;
                    // A long recursion of the Rust's needs no more than this.
                    let thread = std::thread::Builder::new().stack_size(64 << 20);
                    let run = move || {
                        let seed = settings.seed.wrapping_mul(0x9E37_79B9) ^ ((at as u64) << 48) ^ (number << 40);
                        let mut worker = Worker {
                            settings,
                            number,
                            of: threads,
                            random: Random::new(seed),
                            lent: Lent::new(),
                            tally: Tally::default(),
                        };
                        part(&mut worker);
                        worker.tally
                    };
                    thread.spawn_scoped(scope, run).expect("a thread")
                })
                .collect();
            for worker in workers {
                sum.add(&worker.join().expect("a worker ends"));
            }
        });
        println!(
            "| {name} | {} | {} | {} | {} | {} | {:.1} | {} |",
            sum.cases,
            sum.numbers[0],
            sum.numbers[1..].iter().sum::<u64>(),
            sum.strict.iter().sum::<u64>(),
            sum.strict[22],
            start.elapsed().as_secs_f64(),
            sum.different
        );
        total.add(&sum);
    }
    println!(
        "| all | {} | {} | {} | {} | {} | {:.1} | {} |",
        total.cases,
        total.numbers[0],
        total.numbers[1..].iter().sum::<u64>(),
        total.strict.iter().sum::<u64>(),
        total.strict[22],
        begin.elapsed().as_secs_f64(),
        total.different
    );
    println!("\nHow often each number was answered, and how often in the strict reading:");
    for (number, (count, strict)) in total.numbers.iter().zip(&total.strict).enumerate() {
        println!("  {number:2}  {count}  {strict}");
    }
    println!("{} cases, {} different", total.cases, total.different);
    std::process::exit(i32::from(total.different > 0));
}
