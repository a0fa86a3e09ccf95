//! Random glyphs, damaged copies, and the subroutine bank.

use crate::cipher::{NOT_ENCRYPTED, encrypt};
use crate::geometry::Matrix;
use crate::random::Random;

/// An input of converting, not encrypted yet.
#[derive(Clone)]
pub struct Glyph {
    pub plain: Vec<u8>,
    pub subrs: Vec<Vec<u8>>,
    pub len_iv: usize,
}

/// An input of converting, as it is handed over.
#[derive(Clone)]
pub struct Input {
    pub charstring: Vec<u8>,
    pub subrs: Vec<Vec<u8>>,
    pub len_iv: usize,
}

/// Document 01, "Bank".
pub fn bank(subrs: &[Vec<u8>]) -> Vec<u8> {
    let mut out = (subrs.len() as u16).to_be_bytes().to_vec();
    let mut offset = 0u32;
    out.extend(offset.to_be_bytes());
    for body in subrs {
        offset += body.len() as u32;
        out.extend(offset.to_be_bytes());
    }
    for body in subrs {
        out.extend(body);
    }
    out
}

/// The bodies of a bank; none where it breaks its layout.
pub fn bodies(bank: &[u8]) -> Option<Vec<Vec<u8>>> {
    let count = u16::from_be_bytes(bank.get(..2)?.try_into().unwrap()) as usize;
    let table = 2 + 4 * (count + 1);
    let offsets: Vec<usize> = bank
        .get(2..table)?
        .chunks(4)
        .map(|c| u32::from_be_bytes(c.try_into().unwrap()) as usize)
        .collect();
    let rest = &bank[table..];
    if offsets[0] != 0 || offsets[count] != rest.len() || offsets.windows(2).any(|w| w[0] > w[1]) {
        return None;
    }
    Some(offsets.windows(2).map(|w| rest[w[0]..w[1]].to_vec()).collect())
}

pub fn encrypted(r: &mut Random, g: &Glyph) -> Input {
    Input {
        charstring: encrypt(r, &g.plain, g.len_iv),
        subrs: g.subrs.iter().map(|s| encrypt(r, s, g.len_iv)).collect(),
        len_iv: g.len_iv,
    }
}

// ---------------------------------------------------------------------------
// Random charstrings
// ---------------------------------------------------------------------------

/// The number v in one of its forms.
pub fn push_int(r: &mut Random, out: &mut Vec<u8>, v: i32) {
    let long = r.once_in(30);
    match v {
        -107..=107 if !long => out.push((v + 139) as u8),
        108..=1131 if !long => {
            let w = v - 108;
            out.extend([(w / 256 + 247) as u8, (w % 256) as u8]);
        }
        -1131..=-108 if !long => {
            let w = -v - 108;
            out.extend([(w / 256 + 251) as u8, (w % 256) as u8]);
        }
        _ => {
            out.push(255);
            out.extend(v.to_be_bytes());
        }
    }
}

/// A number, or two and a div.
fn push_operand(r: &mut Random, out: &mut Vec<u8>) {
    if r.once_in(25) {
        let a = r.between(-5000, 5000) as i32;
        let b = if r.once_in(40) {
            0
        } else {
            r.pick(&[1, 2, 3, 4, 6, 7, 10, 100, -3, 1000])
        };
        push_int(r, out, a);
        push_int(r, out, b);
        out.extend([12, 12]);
        return;
    }
    let v = match r.below(40) {
        0 => r.pick(&[107, 108, 1131, 1132, -107, -108, -1131, -1132]),
        1 if r.once_in(6) => r.pick(&[32767, 32768, -32768, -32769]),
        2 if r.once_in(12) => r.next() as i32,
        3..=8 => 0,
        9..=15 => r.between(-900, 900) as i32,
        _ => r.between(-120, 120) as i32,
    };
    push_int(r, out, v);
}

fn operator(r: &mut Random, out: &mut Vec<u8>, operands: usize, op: &[u8]) {
    if r.once_in(60) {
        // One operand more: those below the operator's are dropped.
        push_operand(r, out);
    }
    for _ in 0..operands {
        push_operand(r, out);
    }
    out.extend(op);
}

fn push_stem(r: &mut Random, out: &mut Vec<u8>) {
    let op = r.pick(&[1u8, 3]);
    let ghost = r.once_in(5);
    let pos = r.between(-10, 40) as i32 * 20;
    push_int(r, out, pos);
    let width = if ghost {
        r.pick(&[-20, -21])
    } else {
        r.between(1, 9) as i32 * 10
    };
    push_int(r, out, width);
    out.push(op);
}

fn push_stems(r: &mut Random, out: &mut Vec<u8>) {
    for _ in 0..r.below(5) {
        match r.below(10) {
            0 => operator(r, out, 6, &[12, 1]),
            1 => operator(r, out, 6, &[12, 2]),
            2 => operator(r, out, 2, &[1]),
            _ => push_stem(r, out),
        }
    }
}

fn other_subr(r: &mut Random, out: &mut Vec<u8>, count: i32, number: i32) {
    push_int(r, out, count);
    push_int(r, out, number);
    out.extend([12, 16]);
}

/// A flex by OtherSubrs 1, 2 and 0, mostly a right one.
fn push_flex(r: &mut Random, out: &mut Vec<u8>) {
    if !r.once_in(40) {
        other_subr(r, out, 0, 1);
    }
    let points = if r.once_in(25) { r.below(10) } else { 7 };
    for _ in 0..points {
        operator(r, out, 2, &[21]);
        if r.once_in(60) {
            // A line within the flex is drawn.
            operator(r, out, 2, &[5]);
        }
        other_subr(r, out, 0, 2);
    }
    let arguments = if r.once_in(10) { r.below(4) as i32 } else { 3 };
    for _ in 0..arguments {
        push_operand(r, out);
    }
    other_subr(r, out, arguments, 0);
    if !r.once_in(10) {
        out.extend([12, 17, 12, 17, 12, 33]);
    }
}

/// Hint replacement: OtherSubr 3, then the subroutine whose number is popped, or the stems at once.
fn push_replacement(r: &mut Random, out: &mut Vec<u8>, subrs: usize) {
    let n = if subrs == 0 { 0 } else { r.below(subrs as u64) as i32 };
    push_int(r, out, n);
    other_subr(r, out, 1, 3);
    out.extend([12, 17]);
    if subrs > 0 && r.once_in(2) {
        out.push(10);
    } else {
        push_stems(r, out);
    }
}

fn push_path(r: &mut Random, out: &mut Vec<u8>) {
    match r.below(12) {
        0 => operator(r, out, 2, &[21]),
        1 => operator(r, out, 1, &[22]),
        2 => operator(r, out, 1, &[4]),
        3 => operator(r, out, 2, &[5]),
        4 => operator(r, out, 1, &[6]),
        5 => operator(r, out, 1, &[7]),
        6 => operator(r, out, 6, &[8]),
        7 => operator(r, out, 4, &[30]),
        8 => operator(r, out, 4, &[31]),
        9 => out.push(9),
        10 => {
            // A run of lines or curves about as long as one operator takes.
            if r.once_in(4) {
                if r.once_in(2) {
                    for _ in 0..r.between(21, 26) {
                        let op = r.pick(&[6, 7]);
                        operator(r, out, 1, &[op]);
                    }
                } else {
                    for _ in 0..r.between(6, 9) {
                        let op = r.pick(&[30, 31]);
                        operator(r, out, 4, &[op]);
                    }
                }
            }
        }
        _ => operator(r, out, 2, &[12, 33]),
    }
}

fn push_rare(r: &mut Random, out: &mut Vec<u8>) {
    match r.below(12) {
        0 => out.extend([12, 0]),
        1 => operator(r, out, 4, &[12, 7]),
        2 => operator(r, out, 2, &[13]),
        3 => operator(r, out, 5, &[12, 6]),
        4 => {
            // An unknown OtherSubr hands its arguments back.
            let n = r.below(4) as i32;
            for _ in 0..n {
                push_operand(r, out);
            }
            let number = r.pick(&[4, 12, 13, -1, 100]);
            other_subr(r, out, n, number);
            for _ in 0..n {
                out.extend([12, 17]);
            }
        }
        5 => other_subr(r, out, 0, 2),
        6 => out.push(r.byte()),
        7 => out.extend([12, r.byte()]),
        8 => {
            // A number that truncates: of a subroutine, of arguments, of an OtherSubr.
            let (a, b) = r.pick(&[(29, 10), (-5, 10), (-1, 2), (1, 2), (5, 2)]);
            push_int(r, out, a);
            push_int(r, out, b);
            out.extend([12, 12]);
            out.extend(r.pick(&[&[10u8][..], &[139, 12, 16], &[12, 16]]));
        }
        9 => other_subr(r, out, 3, 9),
        10 => out.extend([12, 17]),
        _ => push_operand(r, out),
    }
}

fn push_piece(r: &mut Random, out: &mut Vec<u8>, subrs: usize) {
    match r.below(40) {
        0..=1 => push_flex(r, out),
        2..=3 => push_replacement(r, out, subrs),
        4..=5 => push_stems(r, out),
        6..=8 if subrs > 0 => {
            let n = r.below(subrs as u64) as i32;
            push_int(r, out, n);
            out.push(10);
        }
        9 if r.once_in(3) => push_rare(r, out),
        _ => push_path(r, out),
    }
}

/// Bounds of a random glyph: its subroutines, the pieces of one, its own pieces.
pub struct Bounds {
    pub subrs: u64,
    pub body: u64,
    pub pieces: u64,
}

pub const LONG: Bounds = Bounds {
    subrs: 6,
    body: 5,
    pieces: 16,
};

pub const SHORT: Bounds = Bounds {
    subrs: 3,
    body: 3,
    pieces: 6,
};

pub fn glyph(r: &mut Random, bounds: &Bounds) -> Glyph {
    let count = if r.once_in(3) {
        0
    } else {
        r.below(bounds.subrs) as usize
    };
    let mut subrs: Vec<Vec<u8>> = Vec::new();
    for n in 0..count {
        let mut body = Vec::new();
        // A body calls those before it, and rarely any.
        let reach = if r.once_in(40) { count } else { n };
        for _ in 0..r.below(bounds.body) {
            if r.once_in(3) {
                push_stems(r, &mut body);
            } else {
                push_piece(r, &mut body, reach);
            }
        }
        match r.below(12) {
            0 => {}
            1 if r.once_in(3) => body.push(14),
            _ => body.push(11),
        }
        subrs.push(body);
    }
    let mut plain = Vec::new();
    match r.below(8) {
        0 => {}
        1 => operator(r, &mut plain, 4, &[12, 7]),
        _ => {
            let side_bearing = r.pick(&[0, 10, 50, -20]);
            push_int(r, &mut plain, side_bearing);
            let width = r.pick(&[500, 0, 600, 250, 1000, 333]);
            push_int(r, &mut plain, width);
            plain.push(13);
        }
    }
    push_stems(r, &mut plain);
    for _ in 0..r.below(bounds.pieces) {
        push_piece(r, &mut plain, count);
    }
    if !r.once_in(10) {
        plain.push(9);
    }
    if !r.once_in(12) {
        plain.push(14);
    }
    Glyph {
        plain,
        subrs,
        len_iv: r.pick(&[NOT_ENCRYPTED, NOT_ENCRYPTED, NOT_ENCRYPTED, 4, 4, 0, 1]),
    }
}

/// A copy with a byte changed, dropped or added, or the end cut.
pub fn damaged(r: &mut Random, g: &Glyph) -> Glyph {
    let mut bad = g.clone();
    let which = r.below(1 + bad.subrs.len() as u64) as usize;
    let s = if which == 0 {
        &mut bad.plain
    } else {
        &mut bad.subrs[which - 1]
    };
    let at = r.below(s.len() as u64 + 1) as usize;
    match r.below(4) {
        0 => s.truncate(at),
        1 => s.insert(at, r.byte()),
        2 if at < s.len() => {
            s.remove(at);
        }
        _ if at < s.len() => s[at] = r.byte(),
        _ => s.push(r.byte()),
    }
    bad
}

/// A matrix with finite entries.
pub fn matrix(r: &mut Random) -> Matrix {
    let d = |r: &mut Random| r.between(-3000, 3000) as f64 / 1000.0;
    let s = |r: &mut Random| r.between(1, 3000) as f64 / 1000.0;
    let six = match r.below(14) {
        0..=4 => [1.0, 0.0, 0.0, 1.0, 0.0, 0.0],
        5 => [1.0, -0.0, -0.0, 1.0, -0.0, 0.0],
        6 => [s(r), 0.0, 0.0, s(r), d(r) * 100.0, d(r) * 100.0],
        // Skewed, flipped, turned.
        7 => [1.0, 0.0, d(r), 1.0, 0.0, 0.0],
        8 => [s(r), d(r), 0.0, s(r), d(r), 0.0],
        9 => [r.pick(&[-1.0, 1.0]), 0.0, 0.0, -1.0, 0.0, d(r) * 100.0],
        10 => [0.0, s(r), -s(r), 0.0, d(r), d(r)],
        // Tiny, huge, any.
        11 | 12 => {
            let k = r.pick(&[1e-300, 1e-12, 1e-5, 1e-3, 1e6, 1e200, 1e297, 1e305]);
            [d(r) * k, 0.0, 0.0, s(r) * k, 0.0, 0.0]
        }
        _ => [d(r), d(r), d(r), d(r), d(r) * 1000.0, d(r) * 1000.0],
    };
    let [a, b, c, d, tx, ty] = six;
    Matrix::new(a, b, c, d, tx, ty)
}
