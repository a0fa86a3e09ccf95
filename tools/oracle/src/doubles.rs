//! Functions of doubles, points and matrices.

use crate::geometry::{self, Matrix};
use crate::random::Random;
use crate::vector::{Fields, Vectors};

/// v and the doubles next to it, with either sign.
fn around(to: &mut Vec<f64>, v: f64) {
    for w in [v.next_down(), v, v.next_up()] {
        to.push(w);
        to.push(-w);
    }
}

/// Doubles at which a function of one double may go wrong.
pub fn edges() -> Vec<f64> {
    let mut all = vec![f64::NAN, f64::INFINITY, f64::NEG_INFINITY];
    all.extend([0.0, -0.0, f64::MAX, f64::MIN]);
    // The smallest, and the largest subnormal.
    around(&mut all, f64::from_bits(1));
    around(&mut all, f64::MIN_POSITIVE);
    // Whole numbers and halves, small and large.
    let mut wholes: Vec<f64> = (0..=20).map(f64::from).collect();
    wholes.extend([107.0, 108.0, 1131.0, 1132.0, 32767.0, 32768.0, 65535.0, 65536.0]);
    for k in [31, 32, 40, 48, 49, 50, 51] {
        let p = 2f64.powi(k);
        wholes.extend([p - 1.0, p, p + 1.0]);
    }
    for n in wholes {
        if n > 0.0 {
            around(&mut all, n);
        }
        around(&mut all, n + 0.5);
    }
    // Where halves end, where whole numbers end, the ends of i64 and usize.
    for k in [52, 53, 54, 62, 63, 64, 65, 100, 1000, 1023] {
        around(&mut all, 2f64.powi(k));
    }
    for k in [52, 53] {
        let p = 2f64.powi(k);
        for d in 1..=4 {
            all.extend([p - f64::from(d), p + f64::from(d), -p - f64::from(d), f64::from(d) - p]);
        }
    }
    // The largest doubles below 2^63 and 2^64, by steps.
    for p in [2f64.powi(63), 2f64.powi(64)] {
        let mut v = p;
        for _ in 0..3 {
            v = v.next_down();
            all.extend([v, -v]);
        }
    }
    all
}

/// A random double of a random sort: any pattern, a decimal, a half, a whole number, any exponent near 1.
pub fn random(r: &mut Random) -> f64 {
    match r.below(6) {
        0 => f64::from_bits(r.next()),
        1 => decimal(r),
        2 => {
            let k = r.below(52) as u32;
            let n = (r.next() >> (63 - k)) as f64 + 0.5;
            let v = match r.below(3) {
                0 => n.next_down(),
                1 => n,
                _ => n.next_up(),
            };
            if r.once_in(2) { v } else { -v }
        }
        3 => (r.next() as i64 >> r.below(64)) as f64,
        4 => {
            let exponent = 1023 - 70 + r.below(140);
            f64::from_bits(r.next() & 0x800F_FFFF_FFFF_FFFF | exponent << 52)
        }
        _ => (r.between(-2_000_000, 2_000_000) as f64) / 65536.0,
    }
}

/// A number of a few decimal places.
pub fn decimal(r: &mut Random) -> f64 {
    let digits = r.below(16) as i32;
    let top = 10i64.pow(1 + r.below(17) as u32);
    r.between(-top, top) as f64 / 10f64.powi(digits)
}

/// The edges, then random doubles, `count` in all.
fn inputs(r: &mut Random, count: usize) -> Vec<f64> {
    let mut all = edges();
    assert!(all.len() <= count);
    while all.len() < count {
        all.push(random(r));
    }
    all
}

fn unary(r: &mut Random, to: &mut Vectors, count: usize, f: fn(f64) -> f64) {
    for v in inputs(r, count) {
        to.add(Fields::new().double(v).double(f(v)));
    }
}

pub fn round(r: &mut Random, to: &mut Vectors) {
    unary(r, to, 4096, f64::round);
}

pub fn floor(r: &mut Random, to: &mut Vectors) {
    unary(r, to, 4096, f64::floor);
}

pub fn abs(r: &mut Random, to: &mut Vectors) {
    unary(r, to, 1024, f64::abs);
}

pub fn is_finite(r: &mut Random, to: &mut Vectors) {
    for v in inputs(r, 1024) {
        to.add(Fields::new().double(v).number(u64::from(v.is_finite())));
    }
}

pub fn to_usize(r: &mut Random, to: &mut Vectors) {
    for v in inputs(r, 3072) {
        to.add(Fields::new().double(v).size(v as usize));
    }
}

pub fn to_i64(r: &mut Random, to: &mut Vectors) {
    for v in inputs(r, 3072) {
        to.add(Fields::new().double(v).number(v as i64 as u64));
    }
}

pub fn round10(r: &mut Random, to: &mut Vectors) {
    let mut all = inputs(r, 2048);
    while all.len() < 4096 {
        // Halves and edges of the eleventh place, and where the product overflows.
        all.push(match r.below(4) {
            0 => (r.between(-1_000_000, 1_000_000) as f64 + 0.5) / 1e10,
            1 => r.pick(&edges()) / 1e10,
            2 => r.between(-1 << 53, 1 << 53) as f64 / 1e10,
            _ => f64::from_bits((1023 + 980 + r.below(43)) << 52 | r.next() >> 12),
        });
    }
    for v in all {
        to.add(Fields::new().double(v).double(geometry::round10(v)));
    }
}

/// A matrix of a random sort.
pub fn matrix(r: &mut Random) -> Matrix {
    let mut six = [1.0, 0.0, 0.0, 1.0, 0.0, 0.0];
    match r.below(10) {
        0 => {}
        // The identity with a zero's sign or one entry changed.
        1 => {
            let i = r.below(6) as usize;
            six[i] = if six[i] == 0.0 { -0.0 } else { -1.0 };
        }
        2 => six = [0.001, 0.0, 0.0, 0.001, 0.0, 0.0],
        3 => six[r.below(6) as usize] = r.pick(&[f64::NAN, f64::INFINITY, f64::NEG_INFINITY]),
        // Huge, tiny.
        4 => six = six.map(|v| v * 1e300 * decimal(r)),
        5 => six = six.map(|v| v * 1e-300 * decimal(r)),
        6 => {
            for v in &mut six {
                *v = f64::from_bits(r.next());
            }
        }
        _ => {
            for v in &mut six {
                *v = random(r);
            }
        }
    }
    let [a, b, c, d, tx, ty] = six;
    Matrix::new(a, b, c, d, tx, ty)
}

fn transformed(r: &mut Random, to: &mut Vectors, f: fn(&Matrix, f64, f64) -> (f64, f64)) {
    let edges = edges();
    for _ in 0..1500 {
        let m = matrix(r);
        let mut xy = [0.0; 2];
        for v in &mut xy {
            *v = match r.below(4) {
                0 => r.pick(&edges),
                1 => r.between(-2000, 2000) as f64,
                _ => random(r),
            };
        }
        let (x, y) = f(&m, xy[0], xy[1]);
        to.add(Fields::new().doubles(&m.to_array()).doubles(&xy).double(x).double(y));
    }
}

pub fn transform_point(r: &mut Random, to: &mut Vectors) {
    transformed(r, to, Matrix::transform_point);
}

pub fn transform_delta(r: &mut Random, to: &mut Vectors) {
    transformed(r, to, Matrix::transform_delta);
}
