//! Type 2 numbers and the widths of a font.

use crate::doubles;
use crate::glyphs::refusal;
use crate::random::Random;
use crate::type1_to_type2::{self, oracle};
use crate::vector::{Fields, Vectors};

/// Doubles near whole numbers and near the halves of 1/65536.
fn near_grid(r: &mut Random) -> f64 {
    let whole = r.between(-33000, 33000) as f64;
    match r.below(5) {
        0 => whole + r.pick(&[1e-9, 9.9e-10, 1.01e-9, 1e-10, 1e-8, 0.5]),
        1 => whole - r.pick(&[1e-9, 9.9e-10, 1.01e-9, 1e-10, 1e-8, 0.5]),
        2 => whole + (r.between(0, 65535) as f64 + 0.5) / 65536.0,
        3 => (whole + (r.between(0, 65535) as f64 + 0.5) / 65536.0).next_up(),
        _ => (whole + (r.between(0, 65535) as f64 + 0.5) / 65536.0).next_down(),
    }
}

fn inputs(r: &mut Random, count: usize) -> Vec<f64> {
    let mut all = doubles::edges();
    for n in [0, 107, 108, 1131, 1132, 32767, 32768, 32769] {
        for part in [0.0, 1.0 / 65536.0, 0.5 / 65536.0, 0.5, 65535.0 / 65536.0, 1e-9] {
            let v = f64::from(n) + part;
            all.extend([v, -v, v.next_up(), -v.next_up(), v.next_down(), -v.next_down()]);
        }
    }
    while all.len() < count {
        all.push(match r.below(3) {
            0 => doubles::random(r),
            1 => near_grid(r),
            _ => r.between(-33000, 33000) as f64,
        });
    }
    all
}

pub fn quantize(r: &mut Random, to: &mut Vectors) {
    for v in inputs(r, 4096) {
        to.add(Fields::new().double(v).double(oracle::quantize(v)));
    }
}

fn add_number(to: &mut Vectors, v: f64) {
    let (number, bytes) = match oracle::push_number(v) {
        Ok(bytes) => (0, bytes),
        Err(text) => (refusal(&text), Vec::new()),
    };
    to.add(Fields::new().double(v).number(number).string(&bytes));
}

/// The Rust pushes rounded numbers only. On others it differs from us, as docs/DIFFERENCES.md says.
pub fn push_number(r: &mut Random, to: &mut Vectors) {
    let unit = 1.0 / 65536.0;
    for end in [-32768.0, 32768.0] {
        for k in -3..=3 {
            add_number(to, end + f64::from(k));
            add_number(to, end + f64::from(k) * unit);
        }
    }
    // Every change of form, and the units next to it.
    for n in [0, 107, 108, 363, 364, 1131, 1132, 32767] {
        for k in -2..=2 {
            let v = f64::from(n) + f64::from(k) * unit;
            for w in [v, -v] {
                add_number(to, w);
            }
        }
    }
    for v in inputs(r, 3000) {
        add_number(to, oracle::quantize(v));
    }
}

/// Adobe's examples of numbers, not the Rust's answers: those of TN#5176, table 4, whose forms Type 2 has too,
/// and both ends of each form of TN#5177, section 3.2. A whole number has a shorter form than 255's.
const ADOBE: [(f64, &[u8]); 19] = [
    (0.0, &[0x8b]),
    (100.0, &[0xef]),
    (-100.0, &[0x27]),
    (1000.0, &[0xfa, 0x7c]),
    (-1000.0, &[0xfe, 0x7c]),
    (10000.0, &[0x1c, 0x27, 0x10]),
    (-10000.0, &[0x1c, 0xd8, 0xf0]),
    (-107.0, &[0x20]),
    (107.0, &[0xf6]),
    (108.0, &[0xf7, 0x00]),
    (1131.0, &[0xfa, 0xff]),
    (-108.0, &[0xfb, 0x00]),
    (-1131.0, &[0xfe, 0xff]),
    (-32768.0, &[0x1c, 0x80, 0x00]),
    (32767.0, &[0x1c, 0x7f, 0xff]),
    (-32768.0 + 1.0 / 65536.0, &[0xff, 0x80, 0x00, 0x00, 0x01]),
    (32768.0 - 1.0 / 65536.0, &[0xff, 0x7f, 0xff, 0xff, 0xff]),
    (1.0 / 65536.0, &[0xff, 0x00, 0x00, 0x00, 0x01]),
    (-1.0 / 65536.0, &[0xff, 0xff, 0xff, 0xff, 0xff]),
];

pub fn adobe_numbers(_: &mut Random, to: &mut Vectors) {
    for (v, bytes) in ADOBE {
        to.add(Fields::new().double(v).number(0).string(bytes));
    }
}

fn add_widths(to: &mut Vectors, widths: &[f64], scratch: usize, number: u64, pair: (f64, f64)) {
    let fields = Fields::new().size(widths.len()).doubles(widths).size(scratch);
    to.add(fields.number(number).double(pair.0).double(pair.1));
}

/// A list that nothing is wrong with.
fn add_chosen(to: &mut Vectors, widths: &[f64], spare: usize) {
    let pair = type1_to_type2::choose_widths(widths);
    add_widths(to, widths, widths.len() + spare, 0, pair);
}

fn finite(r: &mut Random) -> f64 {
    loop {
        let v = doubles::random(r);
        if v.is_finite() {
            return v;
        }
    }
}

/// n widths of a random sort.
fn widths(r: &mut Random, n: usize) -> Vec<f64> {
    let sort = r.below(9);
    let most = r.between(1, 1500);
    let mut all: Vec<f64> = (0..n)
        .map(|_| match sort {
            0 => r.pick(&[0.0, -0.0, 214.0, -107.0, 107.5]),
            1 => r.between(0, 6) as f64 * 107.0,
            2 => r.between(0, 40) as f64 * 25.0,
            3 => r.between(0, 20) as f64 / 4.0 + r.pick(&[0.0, 1e-10, 1e-7]),
            4 => r.between(-600, 600) as f64 + r.pick(&[0.0, 0.3, 0.5]),
            5 => finite(r),
            6 => r.between(0, most) as f64,
            7 => r.pick(&[0.0, 214.0, 428.0]) + r.between(-2, 2) as f64 / 65536.0,
            _ => r.pick(&[500.0, 500.0, 600.0, 250.0, 722.0, 714.0, 500.0 + 1.0 / 65536.0]),
        })
        .collect();
    match r.below(6) {
        0 => all.sort_by(f64::total_cmp),
        1 => all.sort_by(|a, b| b.total_cmp(a)),
        _ => {}
    }
    all
}

pub fn choose_widths(r: &mut Random, to: &mut Vectors) {
    // Numbers 19 and 20 are the document's, which the Rust has not: it never ends on a NaN.
    for bad in [f64::NAN, f64::INFINITY, f64::NEG_INFINITY] {
        for room in [0, 1, 8] {
            add_widths(to, &[bad], room, 19, (0.0, 0.0));
            add_widths(to, &[500.0, bad], room, 19, (0.0, 0.0));
            add_widths(to, &[500.0, bad, 500.0], room, 19, (0.0, 0.0));
        }
    }
    add_widths(to, &[500.0, 600.0], 1, 20, (0.0, 0.0));
    add_widths(to, &[500.0], 0, 20, (0.0, 0.0));
    add_chosen(to, &[], 0);
    add_chosen(to, &[], 5);
    add_chosen(to, &[500.0, 500.0, 600.0], 0);
    // One width, two and three equal ones.
    let unit = 1.0 / 65536.0;
    let some = [0.0, -0.0, 500.0, -107.0, 107.0, 0.3, unit, -unit, 1e-9, f64::MIN_POSITIVE, 1e16, 1e300, f64::MAX, f64::MIN];
    for v in some {
        for n in 1..4 {
            add_chosen(to, &vec![v; n], n);
        }
        // And one of each other.
        for w in some {
            add_chosen(to, &[v, w], 0);
            add_chosen(to, &[v, w, v], 1);
            add_chosen(to, &[f64::from(1 << 20), f64::from(1 << 20), v, w], 0);
        }
    }
    // Spans of exactly 214, and a unit more or less; starts where the sum with 214 is rounded.
    for low in [0.0, -0.0, -107.0, -107.5, 500.0, 1e6 + unit, 2f64.powi(45), 2f64.powi(53) - 100.0, 1e300] {
        for k in -2..=2 {
            let high = low + 214.0 + f64::from(k) * unit;
            add_chosen(to, &[1e9, 1e9, 1e9, low, high], 0);
            add_chosen(to, &[1e9, 1e9, 1e9, high, low - 1.0, low], 0);
            add_chosen(to, &[-1e9, low, -1e9, high + 214.0, -1e9, high, high], 2);
        }
    }
    while to.count() < 2400 {
        let most = r.pick(&[2, 5, 9]);
        let n = 1 + r.below(most) as usize;
        let list = widths(r, n);
        add_chosen(to, &list, r.below(3) as usize);
        if r.once_in(20) {
            add_widths(to, &list, r.below(n as u64) as usize, 20, (0.0, 0.0));
        }
    }
    for n in [200, 300, 400, 500, 600, 1000] {
        let list = widths(r, n);
        add_chosen(to, &list, 1);
        add_widths(to, &list[..n / 10], n / 10 - 1, 20, (0.0, 0.0));
    }
}
