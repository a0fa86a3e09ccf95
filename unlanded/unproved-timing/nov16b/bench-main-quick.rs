//! Speed: stet's Rust and ours on the same glyphs, in the same run, on one thread.
//!
//!     bench [--rounds N] FONTS..
//!     bench --ours-only FONT
//!
//! Ours gets 256 stem records, 256 entries of the command store and 4,096 bytes of output, and leaves the stores
//! all zeros; the Rust takes its own memory. A time is the median of the rounds, and the thread's own.

#[allow(dead_code)]
mod archive;
#[allow(dead_code)]
mod charstring;
#[allow(dead_code)]
mod cipher;
#[allow(dead_code)]
mod encoding;
#[allow(dead_code)]
mod font;
#[allow(dead_code)]
mod generate;
#[allow(dead_code)]
mod geometry;
#[allow(dead_code)]
mod random;
#[allow(dead_code)]
mod type1_to_type2;
#[allow(dead_code)]
mod vector;

use archive::Stem;
use cipher::NOT_ENCRYPTED;
use font::Font;
use geometry::Matrix;
use random::Random;
use std::hint::black_box;
use std::rc::Rc;
use type1_to_type2::{choose_widths, convert_charstring_transformed};

#[repr(C)]
struct Timespec {
    seconds: i64,
    nanoseconds: i64,
}

unsafe extern "C" {
    fn clock_gettime(clock: i32, time: *mut Timespec) -> i32;
}

/// Linux's CLOCK_THREAD_CPUTIME_ID.
const THREAD_TIME: i32 = 3;

/// The thread's own time so far, in nanoseconds: what other programs take is not in it.
fn now() -> f64 {
    let mut time = Timespec {
        seconds: 0,
        nanoseconds: 0,
    };
    unsafe { clock_gettime(THREAD_TIME, &mut time) };
    time.seconds as f64 * 1e9 + time.nanoseconds as f64
}

fn matrix_of(m: &[f64; 6]) -> Matrix {
    Matrix::new(m[0], m[1], m[2], m[3], m[4], m[5])
}

/// What is lent to ours.
struct Stores {
    stems: Vec<Stem>,
    commands: Vec<u64>,
    program: Vec<u8>,
    out: Vec<u8>,
}

impl Stores {
    fn new(stems: usize, entries: usize, out: usize) -> Self {
        Self {
            stems: vec![Stem::default(); stems],
            commands: vec![0; 14 * entries],
            program: vec![0; out],
            out: vec![0; out],
        }
    }

    fn usual() -> Self {
        { let v=|n:&str,d:usize| std::env::var(n).map(|s| s.parse().unwrap()).unwrap_or(d); Self::new(v("STEMS",256), v("CMDS",256), v("OUT",4096)) }
    }

    fn convert(&mut self, g: &Case, m: &[f64; 6]) -> [u64; 4] {
        let bank = &g.subrs.bank;
        let mut answer = [0; 4];
        unsafe {
            archive::cribstork_convert(
                g.charstring.as_ptr(),
                g.charstring.len(),
                bank.as_ptr(),
                bank.len(),
                g.len_iv,
                m,
                self.stems.as_mut_ptr(),
                self.stems.len(),
                self.commands.as_mut_ptr(),
                self.commands.len(),
                self.out.as_mut_ptr(),
                self.out.len(),
                &mut answer,
            );
        }
        answer
    }

    fn convert_finished(&mut self, g: &Case, m: &[f64; 6], widths: (f64, f64)) -> [u64; 4] {
        let bank = &g.subrs.bank;
        let mut answer = [0; 4];
        unsafe {
            archive::cribstork_convert_finished(
                g.charstring.as_ptr(),
                g.charstring.len(),
                bank.as_ptr(),
                bank.len(),
                g.len_iv,
                m,
                self.stems.as_mut_ptr(),
                self.stems.len(),
                self.commands.as_mut_ptr(),
                self.commands.len(),
                self.program.as_mut_ptr(),
                self.program.len(),
                widths.0,
                widths.1,
                self.out.as_mut_ptr(),
                self.out.len(),
                &mut answer,
            );
        }
        answer
    }
}

/// A font's subroutines, as the Rust and as ours takes them.
struct Subrs {
    bodies: Vec<Vec<u8>>,
    bank: Vec<u8>,
}

impl Subrs {
    fn new(bodies: Vec<Vec<u8>>) -> Rc<Self> {
        let bank = generate::bank(&bodies);
        Rc::new(Self { bodies, bank })
    }
}

/// A charstring as it is handed over.
struct Case {
    charstring: Vec<u8>,
    len_iv: usize,
    subrs: Rc<Subrs>,
}

/// Glyphs that are timed together.
struct Set {
    cases: Vec<Case>,
    /// Bytes run, together.
    ran: u64,
    /// Bytes of the programs, together.
    written: u64,
}

/// Those of the cases that both sides convert; they must agree. The others are counted.
fn set(cases: Vec<Case>, stores: &mut Stores, m: &[f64; 6]) -> (Set, usize) {
    let matrix = matrix_of(m);
    let mut s = Set {
        cases: Vec::new(),
        ran: 0,
        written: 0,
    };
    let mut left_out = 0;
    for case in cases {
        let theirs = convert_charstring_transformed(&case.charstring, &case.subrs.bodies, case.len_iv, &matrix);
        let [number, len, width, ran] = stores.convert(&case, m);
        match theirs {
            Ok(glyph) if number == 0 => {
                assert!(glyph.program == stores.out[..len as usize], "the programs differ");
                assert!(glyph.width.to_bits() == width, "the widths differ");
                s.ran += ran;
                s.written += len;
                s.cases.push(case);
            }
            _ => left_out += 1,
        }
    }
    (s, left_out)
}

fn of_font(font: &Font, stores: &mut Stores, m: &[f64; 6]) -> (Set, usize) {
    let subrs = Subrs::new(font.subrs.clone());
    let cases = font
        .glyphs
        .iter()
        .map(|(_, charstring)| Case {
            charstring: charstring.clone(),
            len_iv: font.len_iv,
            subrs: subrs.clone(),
        })
        .collect();
    set(cases, stores, m)
}

/// What is timed of a glyph.
#[derive(Clone, Copy, PartialEq)]
enum What {
    Convert,
    Finish,
}

const WIDTHS: (f64, f64) = (500.0, 600.0);

/// All cases, so many times; nanoseconds for one time.
fn time_rust(s: &Set, matrix: &Matrix, what: What, times: usize) -> f64 {
    let start = now();
    for case in (0..times).flat_map(|_| &s.cases) {
        let case = black_box(case);
        let glyph = convert_charstring_transformed(&case.charstring, &case.subrs.bodies, case.len_iv, matrix);
        if what == What::Finish {
            let finished = glyph.and_then(|g| g.charstring(WIDTHS.0, WIDTHS.1));
            let _ = black_box(finished);
        } else {
            let _ = black_box(glyph);
        }
    }
    (now() - start) / times as f64
}

fn time_ours(s: &Set, stores: &mut Stores, m: &[f64; 6], what: What, times: usize) -> f64 {
    let start = now();
    for case in (0..times).flat_map(|_| &s.cases) {
        let answer = if what == What::Finish {
            stores.convert_finished(black_box(case), m, WIDTHS)
        } else {
            stores.convert(black_box(case), m)
        };
        black_box(answer);
        black_box(&stores.out);
    }
    (now() - start) / times as f64
}

fn median(mut all: Vec<f64>) -> f64 {
    all.sort_by(f64::total_cmp);
    if std::env::var("QUICK").is_ok() { return all[0]; }
    all[all.len() / 2]
}

/// Medians of both sides for each set, in nanoseconds; the sides change turns from round to round.
fn medians(sets: &[Set], stores: &mut Stores, m: &[f64; 6], what: What, rounds: usize) -> (f64, f64) {
    let matrix = matrix_of(m);
    let mut times = vec![(Vec::new(), Vec::new()); sets.len()];
    for round in 0..=rounds {
        for (s, (theirs, ours)) in sets.iter().zip(&mut times) {
            let (t, o) = if round % 2 == 0 {
                let t = time_rust(s, &matrix, what, 1);
                (t, time_ours(s, stores, m, what, 1))
            } else {
                let o = time_ours(s, stores, m, what, 1);
                (time_rust(s, &matrix, what, 1), o)
            };
            // The first round warms up.
            if round > 0 {
                theirs.push(t);
                ours.push(o);
            }
        }
    }
    times
        .into_iter()
        .map(|(t, o)| (median(t), median(o)))
        .fold((0.0, 0.0), |a, b| (a.0 + b.0, a.1 + b.1))
}

const MATRICES: [(&str, [f64; 6]); 3] = [
    ("identity", [1.0, 0.0, 0.0, 1.0, 0.0, 0.0]),
    ("scaled by 1/2", [0.5, 0.0, 0.0, 0.5, 0.0, 0.0]),
    ("slanted", [1.0, 0.0, 0.212_556, 1.0, 0.0, 0.0]),
];

fn row(label: &str, sets: &[Set], left_out: usize, (theirs, ours): (f64, f64)) {
    let glyphs: usize = sets.iter().map(|s| s.cases.len()).sum();
    let ran: u64 = sets.iter().map(|s| s.ran).sum();
    let written: u64 = sets.iter().map(|s| s.written).sum();
    let (n, b) = (glyphs as f64, ran as f64);
    println!(
        "| {label} | {glyphs} | {left_out} | {:.0} | {:.0} | {:.0} | {:.0} | {:.2} | {:.2} | {:.2} |",
        b / n,
        written as f64 / n,
        theirs / n,
        ours / n,
        theirs / b,
        ours / b,
        ours / theirs,
    );
}

fn head(title: &str) {
    println!("\n{title}\n");
    println!(
        "| glyphs of | glyphs | left out | bytes run each | bytes written each | the Rust, ns a glyph | ours, ns a glyph | the Rust, ns a byte run | ours, ns a byte run | ratio |"
    );
    println!("|---|---|---|---|---|---|---|---|---|---|");
}

/// One row for each path and matrix; then generated glyphs.
fn fonts(paths: &[String], rounds: usize) {
    let mut stores = Stores::usual();
    for (what, title) in [
        (What::Convert, "Converting"),
        (What::Finish, "Converting and finishing"),
    ] {
        head(title);
        for path in paths {
            let read = font::read_all(std::slice::from_ref(path));
            let last = path.trim_end_matches('/').rsplit('/').next().unwrap_or(path);
            for (name, m) in &MATRICES {
                let mut sets = Vec::new();
                let mut left_out = 0;
                for f in &read {
                    let (s, out) = of_font(f, &mut stores, m);
                    sets.push(s);
                    left_out += out;
                }
                if sets.iter().all(|s| s.cases.is_empty()) {
                    continue;
                }
                let times = medians(&sets, &mut stores, m, what, rounds);
                row(
                    &format!("{last} ({} fonts), {name}", read.len()),
                    &sets,
                    left_out,
                    times,
                );
            }
        }
        if std::env::var("QUICK").is_ok() { return; }
        for (label, bounds) in [("short", generate::SHORT), ("long", generate::LONG)] {
            for (name, m) in &MATRICES {
                let mut r = Random::new(0xBE_BE);
                let cases = (0..4000)
                    .map(|_| {
                        let g = generate::glyph(&mut r, &bounds);
                        let input = generate::encrypted(&mut r, &g);
                        Case {
                            charstring: input.charstring,
                            len_iv: input.len_iv,
                            subrs: Subrs::new(input.subrs),
                        }
                    })
                    .collect();
                let (s, left_out) = set(cases, &mut stores, m);
                let sets = [s];
                let times = medians(&sets, &mut stores, m, what, rounds.max(31));
                row(&format!("generated, {label}, {name}"), &sets, left_out, times);
            }
        }
    }
}

/// A charstring again and again until a sample has some milliseconds; the median of the samples.
fn single(s: &Set, stores: &mut Stores, m: &[f64; 6], rounds: usize) -> (f64, f64) {
    let matrix = matrix_of(m);
    let once = time_rust(s, &matrix, What::Convert, 1).max(time_ours(s, stores, m, What::Convert, 1));
    let times = (1e6 / once).clamp(1.0, 20_000.0) as usize;
    let (mut theirs, mut ours) = (Vec::new(), Vec::new());
    for _ in 0..rounds {
        theirs.push(time_rust(s, &matrix, What::Convert, times));
        ours.push(time_ours(s, stores, m, What::Convert, times));
    }
    (median(theirs), median(ours))
}

fn alone(plain: &[u8], subrs: &[Vec<u8>], len_iv: usize, stores: &mut Stores) -> Set {
    let mut r = Random::new(1);
    let subrs = subrs.iter().map(|b| cipher::encrypt(&mut r, b, len_iv)).collect();
    let case = Case {
        charstring: cipher::encrypt(&mut r, plain, len_iv),
        len_iv,
        subrs: Subrs::new(subrs),
    };
    let (s, left_out) = set(vec![case], stores, &MATRICES[0].1);
    assert!(left_out == 0, "the case converts on both sides");
    s
}

fn growth_row(label: &str, n: u64, (theirs, ours): (f64, f64)) {
    println!(
        "| {label} | {n} | {theirs:.0} | {ours:.0} | {:.2} | {:.2} | {:.2} |",
        theirs / n.max(1) as f64,
        ours / n.max(1) as f64,
        ours / theirs
    );
}

fn growth_head(title: &str, of: &str) {
    println!("\n{title}\n");
    println!("| glyph | {of} | the Rust, ns | ours, ns | the Rust, ns each | ours, ns each | ratio |");
    println!("|---|---|---|---|---|---|---|");
}

fn growth(rounds: usize) {
    let identity = &MATRICES[0].1;
    let mut usual = Stores::usual();
    growth_head("Bytes run, in the usual stores", "bytes run");
    let s = alone(&[], &[], NOT_ENCRYPTED, &mut usual);
    growth_row("empty", 0, single(&s, &mut usual, identity, rounds));
    const SIZES: [usize; 6] = [100, 1_000, 10_000, 100_000, 500_000, 1_048_576];
    for (label, len_iv) in [("not encrypted", NOT_ENCRYPTED), ("lenIV 4", 4)] {
        for size in SIZES {
            let inner = if len_iv == 4 { size - 4 } else { size };
            // Numbers of one and two bytes, a div, a closepath.
            let mut code = [0x8C, 0xF7, 0x10, 0x8D, 0x0C, 0x0C, 0x90, 0x09].repeat(inner / 8 + 1);
            code.truncate(inner);
            while code.last().is_some_and(|&b| b == 0xF7 || b == 0x0C) || code.len() < inner {
                code.pop();
                code.push(0x8C);
            }
            code[inner - 4..].fill(0x09);
            let s = alone(&code, &[], len_iv, &mut usual);
            growth_row(
                &format!("numbers, {label}"),
                s.ran,
                single(&s, &mut usual, identity, rounds),
            );
        }
    }
    for size in SIZES {
        // Calls of a body of 96 bytes: 98 bytes run each, the charstring's two among them.
        let mut body = [0x8C, 0x8D, 0x09].repeat(31);
        body.truncate(91);
        body.push(0x0B);
        let calls = size / 98;
        let code = [0x8B, 0x0A].repeat(calls);
        let s = alone(&code, &[body], 4, &mut usual);
        growth_row(
            "calls of a subroutine, lenIV 4",
            s.ran,
            single(&s, &mut usual, identity, rounds),
        );
    }
    growth_head(
        "Bytes run, a line to every three bytes, in stores that hold them",
        "bytes run",
    );
    for size in SIZES {
        let lines = size / 3;
        let mut stores = Stores::new(256, lines + 2, size + size / 20 + 100);
        let code = [0x8C, 0x8A, 0x05, 0x8A, 0x8C, 0x05].repeat(lines / 2);
        let s = alone(&code, &[], NOT_ENCRYPTED, &mut stores);
        growth_row("lines", s.ran, single(&s, &mut stores, identity, rounds));
    }
    growth_head("Groups of stems, each with a line", "groups");
    for (label, stems) in [
        ("2 stems a group of 96", 2),
        ("12 stems a group of 96", 12),
        ("48 stems a group of 96", 48),
    ] {
        for groups in [1, 2, 4, 8, 16, 32, 64, 128, 256] {
            // The usual stores, or what the case needs.
            let mut stores = Stores::new(256.max(groups * stems), 256.max(2 * groups + 1), 4096.max(40 * groups));
            let mut code = Vec::new();
            for g in 0..groups {
                code.extend([0x8B, 0x8E, 0x0C, 0x10]);
                for i in 0..stems {
                    // Edges 0 to 95, taken by turns, so that groups next to each other differ.
                    let edge = (g * 7 + i * 2) % 96;
                    code.extend([0x8B + edge as u8, 0x8C, 0x01]);
                }
                code.extend([0x8C, 0x8D, 0x05]);
            }
            let s = alone(&code, &[], NOT_ENCRYPTED, &mut stores);
            growth_row(label, groups as u64, single(&s, &mut stores, identity, rounds));
        }
    }
}

fn ours_widths(list: &[f64], scratch: &mut [f64]) -> (u64, [f64; 2]) {
    let mut pair = [0.0; 2];
    let number = unsafe {
        archive::cribstork_choose_widths(
            list.as_ptr(),
            list.len(),
            scratch.as_mut_ptr(),
            scratch.len(),
            &mut pair,
        )
    };
    (number, pair)
}

fn widths(rounds: usize) {
    growth_head("choose_widths", "widths");
    let mut r = Random::new(0x317);
    for (label, doubles) in [("whole numbers, 0 to 1500", false), ("doubles, 0 to 1500", true)] {
        for n in [10, 100, 1_000, 10_000, 65_535] {
            let list: Vec<f64> = (0..n)
                .map(|_| {
                    if doubles {
                        r.below(1_500_000_000) as f64 / 1e6
                    } else {
                        r.below(1501) as f64
                    }
                })
                .collect();
            let mut scratch = vec![0.0; n];
            let expected = choose_widths(&list);
            let (number, pair) = ours_widths(&list, &mut scratch);
            assert!(number == 0 && (pair[0], pair[1]) == expected, "the widths differ");
            let times = (200_000 / n).max(1);
            let (mut theirs, mut ours) = (Vec::new(), Vec::new());
            for _ in 0..rounds {
                let start = now();
                for _ in 0..times {
                    black_box(choose_widths(black_box(&list)));
                }
                theirs.push((now() - start) / times as f64);
                let start = now();
                for _ in 0..times {
                    black_box(ours_widths(black_box(&list), &mut scratch));
                }
                ours.push((now() - start) / times as f64);
            }
            growth_row(label, n as u64, (median(theirs), median(ours)));
        }
    }
}

fn main() {
    let mut words: Vec<String> = std::env::args().skip(1).collect();
    if words.first().is_some_and(|w| w == "--ours-only") {
        let mut stores = Stores::usual();
        for font in font::read_all(&words[1..]) {
            let subrs = Subrs::new(font.subrs.clone());
            let (mut converted, mut ran) = (0, 0);
            let rep: usize = std::env::var("REPEAT").map(|s| s.parse().unwrap()).unwrap_or(1);
            let mi: usize = std::env::var("MATRIX").map(|s| s.parse().unwrap()).unwrap_or(0);
            for _ in 0..rep { for (_, charstring) in &font.glyphs {
                let case = Case {
                    charstring: charstring.clone(),
                    len_iv: font.len_iv,
                    subrs: subrs.clone(),
                };
                let answer = stores.convert(&case, &MATRICES[mi].1);
                converted += u64::from(answer[0] == 0);
                ran += answer[3];
            } }
            println!("{}: {converted} glyphs converted, {ran} bytes run", font.name);
        }
        return;
    }
    let mut rounds = 11;
    if words.first().is_some_and(|w| w == "--rounds") {
        rounds = words[1].parse().expect("a count of rounds");
        words.drain(..2);
    }
    fonts(&words, rounds);
    if std::env::var("QUICK").is_err() { growth(15); }
    widths(rounds);
}
