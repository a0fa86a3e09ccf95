//! Whole glyphs: the Type 1 run, converting and finishing.

use crate::cipher::NOT_ENCRYPTED;
use crate::doubles;
use crate::generate::{Input, LONG, SHORT, bank, bodies, damaged, encrypted, glyph, matrix};
use crate::geometry::Matrix;
use crate::random::Random;
use crate::strict;
use crate::type1_to_type2::{convert_charstring_transformed, oracle};
use crate::vector::{Fields, Vectors};

/// The entries are 1 0 0 1 0 0: points are left alone.
pub fn is_identity(m: &Matrix) -> bool {
    m.to_array() == Matrix::identity().to_array()
}

/// Document 01's number of a refusal of the Rust's.
pub fn refusal(text: &str) -> u64 {
    let numbers = [
        ("too long", 3),
        ("too deeply", 4),
        ("truncated", 5),
        ("unknown operator", 6),
        ("underflow", 7),
        ("no subr", 8),
        ("flex", 9),
        ("div by", 10),
        ("pop with", 11),
        ("seac", 12),
        ("out of range", 13),
    ];
    for (part, number) in numbers {
        if text.contains(part) {
            return number;
        }
    }
    panic!("no number for the refusal {text}");
}

// ---------------------------------------------------------------------------
// Answers
// ---------------------------------------------------------------------------

/// The stem records that `replay` lends.
const RECORDS: usize = 512;

/// Room in the lent command store and in the output.
#[derive(Clone, Copy)]
struct Rooms {
    words: usize,
    output: usize,
}

/// The most that `replay` lends.
const AMPLE: Rooms = Rooms {
    words: 14 * 512,
    output: 2048,
};

/// Enough for most glyphs.
const USUAL: Rooms = Rooms {
    words: 14 * 32,
    output: 256,
};

impl Rooms {
    /// More than is used: the usual room where that is enough, else the most.
    fn spare(self) -> Rooms {
        let usual = self.words <= USUAL.words && self.output <= USUAL.output;
        if usual { USUAL } else { AMPLE }
    }
}

/// What converting answers.
struct Answer {
    number: u64,
    width: f64,
    count: usize,
    program: Vec<u8>,
}

fn refused(number: u64) -> Answer {
    Answer {
        number,
        width: 0.0,
        count: 0,
        program: Vec::new(),
    }
}

/// The Rust's answer with ample room, and what it used; none where the document's limits leave no one number.
fn answer(input: &Input, m: &Matrix) -> Option<(Answer, Option<Rooms>)> {
    match oracle::first_limit(&input.charstring, &input.subrs, input.len_iv) {
        Some(numbers) if numbers.len() == 1 => return Some((refused(numbers[0]), None)),
        Some(_) => return None,
        None => {}
    }
    let run = match oracle::run(&input.charstring, &input.subrs, input.len_iv, m) {
        Ok(run) => run,
        Err(text) => return Some((refused(refusal(&text)), None)),
    };
    let used = Rooms {
        words: 14 * run.commands.len(),
        output: 0,
    };
    if used.words > AMPLE.words {
        return None;
    }
    if run.groups.iter().map(Vec::len).sum::<usize>() > RECORDS {
        return Some((refused(16), None));
    }
    if !run.folds_finite {
        return Some((refused(14), Some(used)));
    }
    match convert_charstring_transformed(&input.charstring, &input.subrs, input.len_iv, m) {
        Ok(glyph) if glyph.program.len() > AMPLE.output => None,
        Ok(glyph) => {
            let output = glyph.program.len();
            let done = Answer {
                number: 0,
                width: glyph.width,
                count: run.bytes_run,
                program: glyph.program,
            };
            Some((done, Some(Rooms { output, ..used })))
        }
        Err(text) => Some((refused(refusal(&text)), Some(used))),
    }
}

fn add_convert(to: &mut Vectors, m: &Matrix, len_iv: usize, charstring: &[u8], bank: &[u8], rooms: Rooms, a: &Answer) {
    let mut fields = Fields::new();
    for v in m.to_array() {
        fields = fields.short_double(v);
    }
    let fields = fields
        .short(len_iv as u64)
        .short_string(charstring)
        .short_string(bank)
        .short(rooms.words as u64)
        .short(rooms.output as u64);
    to.add(with_answer(fields, a));
}

fn with_answer(to: Fields, a: &Answer) -> Fields {
    to.short(a.number)
        .short_double(a.width)
        .short(a.count as u64)
        .short_string(&a.program)
}

/// A vector of the Rust's answer. Of `edges`, also the same input with a store or the output one short.
fn add_answer(r: &mut Random, to: &mut Vectors, input: &Input, m: &Matrix, edges: bool) -> bool {
    let Some((a, used)) = answer(input, m) else {
        return false;
    };
    let bank = bank(&input.subrs);
    let mut add = |rooms: Rooms, a: &Answer| {
        add_convert(to, m, input.len_iv, &input.charstring, &bank, rooms, a);
    };
    let Some(used) = used.filter(|_| a.number == 0) else {
        add(AMPLE, &a);
        return true;
    };
    // Just enough of everything, or a part of an entry more, which is no entry, or spare room.
    let spare = used.spare();
    let rooms = match r.below(4) {
        0 => spare,
        1 => Rooms {
            words: spare.words.min(used.words + r.below(14) as usize),
            output: spare.output.min(used.output + r.below(9) as usize),
        },
        _ => used,
    };
    add(rooms, &a);
    if edges {
        if used.words > 0 {
            let words = used.words - 1;
            add(Rooms { words, ..spare }, &refused(17));
            // 17 before 18.
            add(Rooms { words, output: 0 }, &refused(17));
        }
        let output = used.output - 1;
        add(Rooms { output, ..used }, &refused(18));
    }
    true
}

/// A glyph with every room of a store and of the output that is too small.
fn add_rooms(to: &mut Vectors, input: &Input, m: &Matrix) {
    let Some((a, Some(used))) = answer(input, m) else {
        panic!("the glyph converts");
    };
    assert!(a.number == 0);
    let bank = bank(&input.subrs);
    let mut add = |rooms: Rooms, a: &Answer| {
        add_convert(to, m, input.len_iv, &input.charstring, &bank, rooms, a);
    };
    add(used, &a);
    for output in 0..used.output {
        add(Rooms { output, ..used }, &refused(18));
    }
    for words in 0..used.words {
        add(Rooms { words, ..used }, &refused(17));
    }
}

fn plain(charstring: &[u8], subrs: &[&[u8]]) -> Input {
    Input {
        charstring: charstring.to_vec(),
        subrs: subrs.iter().map(|s| s.to_vec()).collect(),
        len_iv: NOT_ENCRYPTED,
    }
}

/// Inputs at the edges of the document's counts.
pub fn stated_inputs() -> Vec<Input> {
    let mut all = vec![
        // Document 01, "Numbers the board logs": 4 to 13.
        plain(&[0x8B, 0x0A], &[&[0x8B, 0x0A]]),
        plain(&[0xF7], &[]),
        plain(&[0x02], &[]),
        plain(&[0x05], &[]),
        plain(&[0x8B, 0x0A], &[]),
        plain(&[0x8B, 0x8B, 0x0C, 0x10], &[]),
        plain(&[0x8C, 0x8B, 0x0C, 0x0C], &[]),
        plain(&[0x0C, 0x11], &[]),
        plain(&[0x0C, 0x06], &[]),
        plain(&[0xFF, 0x00, 0x00, 0x9C, 0x40, 0x16], &[]),
        // "Glyphs worked through".
        plain(&[], &[]),
        plain(
            &[0x8B, 0xF8, 0x88, 0x0D, 0x95, 0x9F, 0x15, 0x90, 0x8B, 0x05, 0x09, 0x0E],
            &[],
        ),
        plain(&[0x8C, 0x8E, 0x0C, 0x0C, 0x16].repeat(3), &[]),
        plain(&[0xFF, 0x00, 0x00, 0x7F, 0xFF, 0x16], &[]),
        plain(&[0xFF, 0x00, 0x00, 0x80, 0x00, 0x16], &[]),
    ];
    // 14: 1, then 40 times 1, 2147483647, div, div.
    let mut quotient = vec![0x8C];
    for _ in 0..40 {
        quotient.extend([0x8C, 0xFF, 0x7F, 0xFF, 0xFF, 0xFF, 0x0C, 0x0C, 0x0C, 0x0C]);
    }
    all.push(plain(&quotient, &[]));
    // 15: 256 operands pass, 257 do not; the PostScript stack likewise.
    all.push(plain(&[0x8B; 256], &[]));
    all.push(plain(&[0x8B; 257], &[]));
    for n in [256, 257] {
        // n numbers on the PostScript stack, by turns of 32 and one of the rest.
        let mut code = Vec::new();
        let mut left = n;
        while left > 0 {
            let some = left.min(32);
            code.extend(vec![0x8B; some as usize]);
            code.extend([(some + 139) as u8, 0x8F, 0x0C, 0x10]);
            left -= some;
        }
        code.push(0x0E);
        all.push(plain(&code, &[]));
    }
    // 16: 256 stems in force pass, 257 do not.
    for n in [96, 97, 256, 257] {
        let mut code = Vec::new();
        for i in 0..n {
            code.extend([0xF7 + (i / 256) as u8, (i % 256) as u8, 0x8C, 0x01]);
        }
        code.extend([0x8B, 0x16, 0x0E]);
        all.push(plain(&code, &[]));
    }
    // 256 groups pass, 257 do not: OtherSubr 3, an hstem, a move, by turns.
    for n in [256, 257] {
        let mut code = Vec::new();
        for i in 0..n {
            code.extend([0x8B, 0x8E, 0x0C, 0x10]);
            code.extend([139 + (i % 2) as u8, 0x8C, 0x01, 0x8C, 0x16]);
        }
        all.push(plain(&code, &[]));
    }
    // Depth 10 runs, 11 does not: subroutine n calls n + 1.
    for depth in [10usize, 11] {
        let bodies: Vec<Vec<u8>> = (1..=depth)
            .map(|n| {
                if n < depth {
                    vec![139 + n as u8, 0x0A]
                } else {
                    vec![0x8C, 0x16]
                }
            })
            .collect();
        let bodies: Vec<&[u8]> = bodies.iter().map(Vec::as_slice).collect();
        all.push(plain(&[0x8B, 0x0A, 0x0E], &bodies));
    }
    // Bytes run: 1,048,576 pass, one more does not. A body is charged whole, though it returns at once.
    // Here 255 bodies of 4,096 bytes, 3 of 1,024, and the charstring's own 1,024.
    for more in [0, 1] {
        let body = |size: usize| {
            let mut body = vec![0x0B];
            body.resize(size, 0x0E);
            body
        };
        let mut code = [0x8B, 0x0A].repeat(255);
        code.extend([0x8C, 0x0A].repeat(3));
        code.extend([0x8C, 0x16]);
        code.resize(1024 + more, 0x0E);
        all.push(plain(&code, &[&body(4096), &body(1024)]));
    }
    // A lenIV beyond a body's length.
    all.push(Input {
        charstring: vec![0x10, 0xBF, 0x31, 0x70, 0x9D],
        subrs: vec![vec![1, 2], vec![]],
        len_iv: 4,
    });
    all
}

fn hstem(code: &mut Vec<u8>, pos: usize, width: u8) {
    code.extend([0xF7 + (pos / 256) as u8, (pos % 256) as u8, 139 + width, 0x01]);
}

/// Two groups of 256 stems, each with a move: 512 records, 4 entries. `more` adds a group of one.
pub fn full_store(more: bool) -> Input {
    let mut bodies = vec![Vec::new(), Vec::new()];
    for i in 0..256 {
        hstem(&mut bodies[0], i, 1);
        hstem(&mut bodies[1], i, 2);
    }
    let mut code = vec![0x8B, 0x0A, 0x8C, 0x16, 0x8B, 0x8E, 0x0C, 0x10, 0x8C, 0x0A, 0x8C, 0x16];
    if more {
        code.extend([0x8B, 0x8E, 0x0C, 0x10, 0x8C, 0x8C, 0x01, 0x8C, 0x16]);
    }
    plain(&code, &[&bodies[0], &bodies[1]])
}

/// Inputs at the edges of converting: forms of a number, counts of stems, lines and curves, masks, huge values.
pub fn edge_inputs() -> Vec<Input> {
    let mut all = Vec::new();
    // "Glyphs worked through": a move by 107, 108, 1131, 1132, -1132, 0.5.
    for code in [
        &[0xF6][..],
        &[0xF7, 0x00],
        &[0xFA, 0xFF],
        &[0xFF, 0x00, 0x00, 0x04, 0x6C],
        &[0xFF, 0xFF, 0xFF, 0xFB, 0x94],
        &[0x8C, 0x8D, 0x0C, 0x0C],
        &[0xFF, 0xFF, 0xFF, 0x80, 0x00],
        &[0xFF, 0xFF, 0xFF, 0x7F, 0xFF],
    ] {
        for op in [0x16, 0x04] {
            let mut code = code.to_vec();
            code.push(op);
            all.push(plain(&code, &[]));
        }
    }
    // One group of n stems, and two, whose masks share half of them.
    for n in [1, 2, 7, 8, 9, 15, 16, 17, 22, 23, 24, 25, 45, 46, 47, 48, 69, 70, 95, 96, 97, 98] {
        for upright in [false, true] {
            let mut code = Vec::new();
            for i in 0..n {
                hstem(&mut code, i, 1);
                if upright && i % 3 == 0 {
                    *code.last_mut().unwrap() = 0x03;
                }
            }
            code.extend([0x8C, 0x16]);
            all.push(plain(&code, &[]));
            code.extend([0x8B, 0x8E, 0x0C, 0x10]);
            for i in (0..n).rev().step_by(2) {
                hstem(&mut code, i, 1);
            }
            code.extend([0x8C, 0x06, 0x8D, 0x07, 0x09, 0x0E]);
            all.push(plain(&code, &[]));
        }
    }
    // Groups: none left in the second, the same stems in another order, the same again, none at all.
    for (first, second) in [
        (&[1u8, 2][..], &[][..]),
        (&[1, 2], &[2, 1]),
        (&[1, 2], &[1, 2]),
        (&[], &[]),
        (&[], &[1]),
    ] {
        let mut code = Vec::new();
        for stems in [first, second] {
            for s in stems {
                code.extend([139 + s, 0x8C, 0x01]);
            }
            code.extend([0x8C, 0x16, 0x8C, 0x06, 0x8B, 0x8E, 0x0C, 0x10]);
        }
        all.push(plain(&code, &[]));
    }
    // Ghost stems, next to stems of the same edges.
    for width in [-20i32, -21, -19, -22, 20, 21, 0] {
        for op in [0x01, 0x03] {
            let mut code = vec![0xEF, (139 + width) as u8, op, 0x8C, 0x16, 0x8B, 0x8E, 0x0C, 0x10];
            code.extend([0xDA, 0xA0, op, 0x8C, 0x06]);
            all.push(plain(&code, &[]));
        }
    }
    // n lines, n curves: 23 and 7 to an operator.
    for n in [1, 2, 22, 23, 24, 45, 46, 47, 69, 70] {
        all.push(plain(&[0x8C, 0x8D, 0x05].repeat(n), &[]));
    }
    for n in [1, 6, 7, 8, 13, 14, 15, 21, 22] {
        all.push(plain(&[0x8C, 0x8D, 0x8E, 0x8C, 0x8D, 0x8E, 0x08].repeat(n), &[]));
    }
    // 14: 1.9 times 2147483647 to the 33rd, once and twice: a point, a stem's edge by the side bearing.
    let mut huge = vec![0x8C];
    for _ in 0..33 {
        huge.extend([0x8C, 0xFF, 0x7F, 0xFF, 0xFF, 0xFF, 0x0C, 0x0C, 0x0C, 0x0C]);
    }
    huge.extend([0x95, 0x9E, 0x0C, 0x0C, 0x0C, 0x0C]);
    let joined = |parts: &[&[u8]]| plain(&parts.concat(), &[]);
    for op in [0x16, 0x04] {
        all.push(joined(&[&huge, &[op]]));
        all.push(joined(&[&huge, &[op], &huge, &[op]]));
    }
    all.push(joined(&[&huge, &[0x06], &huge, &[0x06]]));
    all.push(joined(&[&huge, &[0x07], &huge, &[0x07]]));
    for op in [0x01, 0x03] {
        all.push(joined(&[&huge, &[0x8C, op, 0x8C, 0x16]]));
        all.push(joined(&[&huge, &huge, &[0x8B, 0x8B, 0x0C, 0x07], &huge, &[0x8C, op, 0x8C, 0x16]]));
    }
    // 16: 512 records fit, one more does not.
    all.push(full_store(false));
    all.push(full_store(true));
    all
}

/// An input with a byte of its bank changed, dropped or added.
fn add_damaged_bank(r: &mut Random, to: &mut Vectors, input: &Input, m: &Matrix) {
    let mut bad = bank(&input.subrs);
    let table = 2 + 4 * (input.subrs.len() + 1);
    let at = r.below(table as u64) as usize;
    match r.below(4) {
        0 => bad.truncate(r.below(bad.len() as u64) as usize),
        1 => bad.push(r.byte()),
        2 => bad[at] = r.byte(),
        _ => bad[at] = bad[at].wrapping_add(1),
    }
    let a = match bodies(&bad) {
        None => refused(2),
        Some(subrs) => {
            let read = Input {
                subrs,
                charstring: input.charstring.clone(),
                len_iv: input.len_iv,
            };
            let Some((a, _)) = answer(&read, m) else {
                return;
            };
            a
        }
    };
    add_convert(to, m, input.len_iv, &input.charstring, &bad, AMPLE, &a);
}

/// The number of convert.vec's kind.
pub const CONVERT: u8 = 15;

/// How many random glyphs are recorded, damaged copies among them.
const GLYPHS: usize = 20_000;

pub fn convert(r: &mut Random, to: &mut Vectors) {
    converting(r, to, |_, _| {});
}

/// The random glyphs of convert.vec that convert: the input, the matrix, and the width and the program that are answered.
pub fn random_glyphs(mut of: impl FnMut(&Input, &Matrix, f64, &[u8])) {
    let mut passed_over = Vectors::new(CONVERT);
    converting(&mut Random::of_kind(CONVERT), &mut passed_over, |input, m| {
        if let Some((a, _)) = answer(input, m)
            && a.number == 0
        {
            of(input, m, a.width, &a.program);
        }
    });
}

/// The vectors of convert.vec. Each random glyph is handed on.
fn converting(r: &mut Random, to: &mut Vectors, mut seen: impl FnMut(&Input, &Matrix)) {
    let identity = Matrix::identity();
    let none = bank(&[]);
    // Numbers 1 and 2: the Rust has neither.
    for bad in [f64::NAN, f64::INFINITY, f64::NEG_INFINITY] {
        for i in 0..6 {
            let mut six = identity.to_array();
            six[i] = bad;
            let [a, b, c, d, tx, ty] = six;
            let m = Matrix::new(a, b, c, d, tx, ty);
            let banks: &[&[u8]] = if i == 0 { &[&none, &[0, 1]] } else { &[&none] };
            for bank in banks {
                add_convert(to, &m, NOT_ENCRYPTED, &[0x0E], bank, AMPLE, &refused(1));
            }
        }
    }
    let one = bank(&[vec![0x0B, 0x0B]]);
    let mut first = one.clone();
    first[5] = 1;
    let mut falls = bank(&[vec![0x0B, 0x0B], vec![]]);
    falls[13] = 1;
    let mut beyond = one.clone();
    beyond.push(0);
    for bad in [
        &[][..],
        &[0],
        &[0, 1],
        &none[..5],
        &one[..one.len() - 1],
        &first,
        &falls,
        &beyond,
    ] {
        add_convert(to, &identity, NOT_ENCRYPTED, &[0x02], bad, AMPLE, &refused(2));
    }
    // 17 and 18: document 01's examples.
    let no_words = Rooms { words: 0, ..AMPLE };
    add_convert(
        to,
        &identity,
        NOT_ENCRYPTED,
        &[0x8C, 0x16],
        &none,
        no_words,
        &refused(17),
    );
    let no_output = Rooms { output: 0, ..AMPLE };
    add_convert(to, &identity, NOT_ENCRYPTED, &[], &none, no_output, &refused(18));
    // 16 before 17: the stem store and the command store are full at once.
    let full = full_store(true);
    for (entries, number) in [(4, 16), (3, 17), (0, 17)] {
        let words = 14 * entries;
        add_convert(
            to,
            &identity,
            NOT_ENCRYPTED,
            &full.charstring,
            &bank(&full.subrs),
            Rooms { words, ..AMPLE },
            &refused(number),
        );
    }
    let flipped = Matrix::new(1.0, 0.0, 0.0, -1.0, 0.0, 0.0);
    let half = Matrix::new(0.5, 0.0, 0.0, 0.25, 10.0, 0.5);
    let skewed = Matrix::new(1.0, 0.0, 0.25, 1.0, 0.0, 0.0);
    for input in stated_inputs().iter().chain(&edge_inputs()) {
        assert!(add_answer(r, to, input, &identity, true));
        for m in [&flipped, &half, &skewed] {
            if input.charstring.len() < 120 {
                assert!(add_answer(r, to, input, m, false));
            }
        }
    }
    // Every room that is too small, of glyphs with stems, masks, lines, curves and a flex.
    let mut rooms = 0;
    while rooms < 8 {
        let g = glyph(r, &SHORT);
        let input = encrypted(r, &g);
        if let Some((a, Some(used))) = answer(&input, &half)
            && a.number == 0
            && used.output < 90
            && a.program.contains(&19)
        {
            add_rooms(to, &input, &half);
            rooms += 1;
        }
    }
    let mut glyphs = 0;
    while glyphs < GLYPHS {
        let g = if r.once_in(50) { glyph(r, &LONG) } else { glyph(r, &SHORT) };
        let m = matrix(r);
        let input = encrypted(r, &g);
        if input.charstring.len() > 400 {
            continue;
        }
        let edges = r.once_in(40);
        let mut add = |r: &mut Random, input: &Input, edges: bool| {
            let added = add_answer(r, to, input, &m, edges);
            glyphs += usize::from(added);
            if added {
                seen(input, &m);
            }
        };
        add(r, &input, edges);
        if r.once_in(4) {
            let bad = damaged(r, &g);
            let input = encrypted(r, &bad);
            add(r, &input, false);
        }
        if r.once_in(40) {
            add_damaged_bank(r, to, &input, &m);
        }
    }
}

/// The answer in the strict reading, with ample room or less: 22 where the Rust's run comes to hold a 25th operand before
/// it ends, is refused or fills a store; the number of that store; else the Rust's.
fn strict_answer(input: &Input, m: &Matrix, rooms: Rooms) -> Option<Answer> {
    let lent = oracle::Lent {
        records: RECORDS,
        entries: rooms.words / 14,
    };
    let watched = oracle::watched(&input.charstring, &input.subrs, input.len_iv, m, &lent);
    if watched.operands > oracle::STRICT_OPERANDS {
        return Some(refused(22));
    }
    match watched.limit {
        Some(numbers) if numbers.len() == 1 => Some(refused(numbers[0])),
        Some(_) => None,
        None => Some(answer(input, m)?.0),
    }
}

/// The strict reading, in convert.vec's layout: document 02's examples, the edges of the depth, and 1,500 random glyphs.
pub fn strict(r: &mut Random, to: &mut Vectors) {
    let mut add = |input: &Input, m: &Matrix, rooms: Rooms| {
        if let Some(a) = strict_answer(input, m, rooms) {
            add_convert(to, m, input.len_iv, &input.charstring, &bank(&input.subrs), rooms, &a);
        }
    };
    let identity = Matrix::identity();
    for code in strict::edges() {
        add(&plain(&code, &[]), &identity, AMPLE);
    }
    for input in stated_inputs().iter().chain(&edge_inputs()) {
        if input.charstring.len() < 300 {
            add(input, &identity, AMPLE);
        }
    }
    for _ in 0..1500 {
        let mut g = strict::glyph(r, |_, _| {});
        g.len_iv = r.pick(&[NOT_ENCRYPTED, 4, 4, 0, 1]);
        let m = matrix(r);
        let input = encrypted(r, &g);
        add(&input, &m, AMPLE);
        if r.once_in(4) {
            let words = 14 * r.below(3) as usize;
            add(&input, &m, Rooms { words, ..AMPLE });
        }
    }
}

/// Charstrings of nothing but closepath. Document 01's example of 3, 1,048,577 bytes `09`, is among them.
pub fn closepaths(_: &mut Random, to: &mut Vectors) {
    for count in [0, 1, 1_048_575, 1_048_576, 1_048_577] {
        let input = plain(&vec![0x09; count], &[]);
        let Some((a, _)) = answer(&input, &Matrix::identity()) else {
            panic!("the Rust answers");
        };
        let fields = Fields::new().short(count as u64).short_string(&bank(&[]));
        to.add(with_answer(fields, &a));
    }
}

/// Runs with no matrix: the groups and the list as the run left them.
pub fn run(r: &mut Random, to: &mut Vectors) {
    let identity = Matrix::identity();
    let mut add = |input: &Input| {
        let limit = oracle::first_limit(&input.charstring, &input.subrs, input.len_iv);
        let result = match &limit {
            None => {
                oracle::run(&input.charstring, &input.subrs, input.len_iv, &identity).map_err(|text| refusal(&text))
            }
            Some(numbers) if numbers.len() == 1 => Err(numbers[0]),
            Some(_) => return,
        };
        let fields = Fields::new()
            .size(input.len_iv)
            .string(&input.charstring)
            .string(&bank(&input.subrs));
        let run = match result {
            Ok(run) => run,
            Err(number) => {
                to.add(fields.number(number));
                return;
            }
        };
        let size = 8 * (6 + run.groups.iter().map(|g| 1 + 3 * g.len()).sum::<usize>())
            + 8 * run.commands.iter().map(|c| 2 + c.coordinates.len()).sum::<usize>();
        if size > 3000 {
            return;
        }
        let mut fields = fields
            .number(0)
            .double(run.width)
            .size(run.bytes_run)
            .size(run.groups.len());
        for group in &run.groups {
            fields = fields.size(group.len());
            for &(horizontal, pos, width) in group {
                fields = fields.number(u64::from(horizontal)).double(pos).double(width);
            }
        }
        fields = fields.size(run.commands.len());
        for c in &run.commands {
            fields = fields.number(c.kind);
            fields = if c.kind == 4 {
                fields.number(c.group)
            } else {
                fields.doubles(&c.coordinates)
            };
        }
        to.add(fields);
    };
    for input in stated_inputs() {
        add(&input);
    }
    for _ in 0..180 {
        let g = glyph(r, &LONG);
        add(&encrypted(r, &g));
        if r.once_in(5) {
            let bad = damaged(r, &g);
            add(&encrypted(r, &bad));
        }
    }
}

pub fn finish(r: &mut Random, to: &mut Vectors) {
    let mut add = |width: f64, program: &[u8], default: f64, nominal: f64| {
        let glyph = oracle::glyph(width, program.to_vec());
        let (number, bytes) = match glyph.charstring(default, nominal) {
            Ok(bytes) => (0, bytes),
            Err(text) => (refusal(&text), Vec::new()),
        };
        let fields = |room: usize, number: u64, bytes: &[u8]| {
            Fields::new()
                .double(width)
                .string(program)
                .double(default)
                .double(nominal)
                .size(room)
                .number(number)
                .string(bytes)
        };
        to.add(fields(bytes.len().max(8) + 3, number, &bytes));
        if number == 0 {
            to.add(fields(bytes.len(), 0, &bytes));
            to.add(fields(bytes.len() - 1, 18, &[]));
        }
    };
    let edges = doubles::edges();
    // Document 01, "Glyphs worked through".
    let worked = [0x95, 0x9F, 0x15, 0x90, 0x8B, 0x05, 0x0E];
    add(500.0, &worked, 500.0, 0.0);
    add(500.0, &worked, 0.0, 0.0);
    // The default equal, NaN, infinite, with another sign of 0; a nominal far off; widths beyond range.
    let inf = f64::INFINITY;
    for (width, default, nominal) in [
        (500.25, 500.25, 0.0),
        (0.3, 0.3, 0.0),
        (500.0, f64::NAN, 0.0),
        (f64::NAN, f64::NAN, 0.0),
        (500.0, 0.0, f64::NAN),
        (inf, inf, 0.0),
        (-inf, -inf, 0.0),
        (inf, -inf, 0.0),
        (500.0, inf, inf),
        (0.0, -0.0, 0.0),
        (-0.0, 0.0, 0.0),
        (-0.0, 1.0, 0.0),
        (500.0, 0.0, 40000.0),
        (500.0, 0.0, -40000.0),
        (500.0, 0.0, 1e300),
        (32767.0, 0.0, 0.0),
        (32768.0, 0.0, 0.0),
        (32768.0, 0.0, 1.0),
        (-32768.0, 0.0, 0.0),
        (-32769.0, 0.0, 0.0),
        (1e300, 0.0, 0.0),
        (1e300, 1e300, 0.0),
    ] {
        add(width, &worked, default, nominal);
    }
    for _ in 0..600 {
        let identity = Matrix::identity();
        let g = glyph(r, &LONG);
        let e = encrypted(r, &g);
        let Some((a, _)) = answer(&e, &identity) else {
            continue;
        };
        if a.number != 0 || a.program.len() > 120 {
            continue;
        }
        let width = match r.below(4) {
            0 => a.width,
            1 => r.between(0, 2000) as f64,
            2 => doubles::decimal(r),
            _ => r.between(0, 1_000_000) as f64 / 997.0,
        };
        let default = match r.below(5) {
            0 => oracle::quantize(width),
            1 => width,
            2 => r.pick(&edges),
            _ => 500.0,
        };
        let nominal = match r.below(5) {
            0 => r.pick(&edges),
            1 => doubles::decimal(r),
            2 => 0.0,
            _ => r.between(0, 1000) as f64,
        };
        add(width, &a.program, default, nominal);
    }
}
