//! Boxes of finished charstrings, and how they lie to windows: stated by `machine`, and taken from the Rust's runs.

use crate::generate::Input;
use crate::geometry::Matrix;
use crate::glyphs;
use crate::machine::{self, Bounds};
use crate::random::Random;
use crate::type1_to_type2::oracle;
use crate::vector::{Fields, Vectors};

// ---------------------------------------------------------------------------
// Programs
// ---------------------------------------------------------------------------

/// The whole number v in its shortest form.
fn int(out: &mut Vec<u8>, v: i32) {
    match v {
        -107..=107 => out.push((v + 139) as u8),
        108..=1131 => out.extend([((v - 108) / 256 + 247) as u8, ((v - 108) % 256) as u8]),
        -1131..=-108 => out.extend([((-v - 108) / 256 + 251) as u8, ((-v - 108) % 256) as u8]),
        _ => {
            out.push(28);
            out.extend((v as i16).to_be_bytes());
        }
    }
}

/// So many units of 1/65536 in the form 255.
fn fraction(out: &mut Vec<u8>, units: i32) {
    out.push(255);
    out.extend(units.to_be_bytes());
}

/// Whole numbers, then an operator.
fn with(numbers: &[i32], op: &[u8]) -> Vec<u8> {
    let mut out = Vec::new();
    for &v in numbers {
        int(&mut out, v);
    }
    out.extend(op);
    out
}

/// Programs that begin with a part each and end with 14.
fn ended(parts: &[&[u8]]) -> Vec<u8> {
    let mut out = parts.concat();
    out.push(14);
    out
}

const STEMS: [u8; 4] = [1, 3, 18, 23];

/// Each operator, with the operands of one use of it, and whether it takes a multiple of them.
const OPERATORS: [(&[u8], usize, bool); 12] = [
    (&[1], 2, true),
    (&[3], 2, true),
    (&[18], 2, true),
    (&[23], 2, true),
    (&[19], 0, false),
    (&[21], 2, false),
    (&[22], 1, false),
    (&[4], 1, false),
    (&[5], 2, true),
    (&[8], 6, true),
    (&[12, 35], 13, false),
    (&[14], 0, false),
];

/// A move by (1, 2), which draws a point.
fn one_move() -> Vec<u8> {
    with(&[1, 2], &[21])
}

/// A stem operator with so many pairs, at most 24.
fn stems(op: u8, pairs: usize) -> Vec<u8> {
    with(&vec![1; 2 * pairs], &[op])
}

/// So many stems, by operators of 24 pairs and one of the rest.
fn many_stems(op: u8, mut count: usize) -> Vec<u8> {
    let mut out = Vec::new();
    while count > 0 {
        let some = count.min(24);
        out.extend(stems(op, some));
        count -= some;
    }
    out
}

/// A program of every operator and every form of a number.
fn every_form() -> Vec<u8> {
    let mut out = with(&[500, 1, 2, -300, 40], &[1]);
    out.extend(with(&[1, 2], &[3]));
    out.extend(with(&[1, 2, 3, 4, 5, 6, 7, 8, 9, 10, 11, 12], &[18]));
    out.extend(with(&[1, 2], &[23]));
    out.extend([19, 0xA5, 0x80]);
    out.extend(with(&[5000, -5000], &[21]));
    out.extend(with(&[7], &[22]));
    out.extend(with(&[-1131], &[4]));
    fraction(&mut out, 0x0001_8000);
    fraction(&mut out, -1);
    out.extend(with(&[1, 2], &[5]));
    out.extend([19, 0x5A, 0x00]);
    out.extend(with(&[1, -2, 3, -4, 5, -6], &[8]));
    out.extend(with(&[1, -2, 3, -4, 5, -6, 7, -8, 9, -10, 11, -12, 50], &[12, 35]));
    out.push(14);
    out
}

/// Programs that fault or draw nothing, and next to them some that do not: what they do is asserted here and so stated
/// twice.
fn faults_and_neighbours(to: &mut Vec<Vec<u8>>) {
    let mut passes = |program: Vec<u8>| {
        assert!(machine::points(&program).is_ok_and(|p| !p.is_empty()), "{program:02X?}");
        to.push(program);
    };
    let first = one_move();
    // 48 operands; 96 stems; a mask of just the stems; bytes after the 14 are not read.
    passes(ended(&[&first, &with(&[1; 48], &[5])]));
    passes(ended(&[&first, &with(&[1; 48], &[8])]));
    passes(ended(&[&with(&[1; 47], &[5])]));
    for op in STEMS {
        passes(ended(&[&many_stems(op, 96), &first]));
        passes(ended(&[&first, &many_stems(op, 96)]));
    }
    passes(every_form());
    for after in [&[][..], &[14], &[0], &[255], &[28, 1], &[247], &[12], &[19], &[139; 60]] {
        passes([&ended(&[&first])[..], after].concat());
    }
    passes(ended(&[&[19], &first]));
    passes(ended(&[&first, &[19]]));
    let mut faults = |program: Vec<u8>| {
        assert!(machine::points(&program).is_err(), "{program:02X?}");
        to.push(program);
    };
    faults(ended(&[&first, &with(&[1; 49], &[5])]));
    faults(ended(&[&first, &with(&[1; 49], &[8])]));
    faults(ended(&[&with(&[1; 49], &[5])]));
    faults(ended(&[&with(&[1; 49], &[1]), &first]));
    faults(ended(&[&first, &[139; 49]]));
    for op in STEMS {
        faults(ended(&[&many_stems(op, 97), &first]));
        faults(ended(&[&many_stems(op, 95), &stems(op, 2), &first]));
        for other in STEMS {
            faults(ended(&[&many_stems(op, 96), &first, &stems(other, 1)]));
        }
    }
    // Bytes that end before a 14: every part of a program. Numbers and masks are cut among them.
    let whole = every_form();
    for n in 0..whole.len() {
        faults(whole[..n].to_vec());
    }
    for cut in [
        &[28][..],
        &[28, 0],
        &[247],
        &[250],
        &[251],
        &[254],
        &[255],
        &[255, 0],
        &[255, 0, 0],
        &[255, 0, 0, 0],
        &[12],
    ] {
        faults([&first, cut].concat());
    }
    // Operators that are none of the machine's, alone, and with TN#5177's operands of those that it has.
    let known = [1, 3, 4, 5, 8, 12, 14, 18, 19, 21, 22, 23, 28];
    for b in (0..32).filter(|b| !known.contains(b)) {
        faults(ended(&[&first, &[b]]));
        faults(ended(&[&[b], &first]));
        // With as many operands as an operator takes.
        for n in [1, 2, 6, 13] {
            faults(ended(&[&first, &with(&vec![1; n], &[b])]));
        }
    }
    for (operands, op) in [
        (1, 6),
        (1, 7),
        (1, 10),
        (1, 29),
        (8, 24),
        (8, 25),
        (4, 26),
        (4, 27),
        (4, 30),
        (4, 31),
    ] {
        faults(ended(&[&first, &with(&vec![1; operands], &[op])]));
    }
    faults(ended(&[&stems(1, 1), &first, &[20, 0x80]]));
    for b in (0..=255).filter(|&b| b != 35) {
        faults(ended(&[&first, &with(&[1; 13], &[12, b])]));
        faults(ended(&[
            &first,
            &with(&[1; 12][..[0, 1, 2, 12][usize::from(b) % 4]], &[12, b]),
        ]));
    }
    for (operands, op) in [(7, 34), (9, 36), (11, 37), (2, 10), (1, 9)] {
        faults(ended(&[&first, &with(&vec![1; operands], &[12, op])]));
    }
    // Bytes within a number or a mask are no operators, and a 14 there ends nothing.
    faults([&first[..], &[28, 14, 14]].concat());
    faults([&first[..], &[255, 14, 14, 14, 14]].concat());
    faults([&stems(1, 8)[..], &first, &[19, 14]].concat());
}

/// Each operator with each number of operands, after a move, and as a program's first, where one more is the width.
fn operand_counts(to: &mut Vec<Vec<u8>>) {
    for (op, each, many) in OPERATORS {
        let most = if many { 49 } else { each + 3 };
        for n in 0..=most {
            let fits = |n: usize| {
                if many {
                    n > 0 && n.is_multiple_of(each)
                } else {
                    n == each
                }
            };
            let numbers: Vec<i32> = (1..=n as i32).map(|i| if i % 3 == 0 { -i } else { i }).collect();
            let used = with(&numbers, op);
            let rest: &[u8] = if op == [14] { &[] } else { &with(&[9], &[22, 14]) };
            let after = [&one_move()[..], &used, rest].concat();
            assert_eq!(machine::points(&after).is_ok(), n < 49 && fits(n), "{after:02X?}");
            to.push(after);
            let first = [&used[..], rest].concat();
            let with_width = n > 0 && fits(n - 1);
            assert_eq!(
                machine::points(&first).is_ok(),
                n < 49 && (fits(n) || with_width),
                "{first:02X?}"
            );
            to.push(first);
        }
    }
}

/// Masks of so many stems: whole, one bit too many, and cut.
fn masks(to: &mut Vec<Vec<u8>>) {
    for count in [0, 1, 2, 7, 8, 9, 15, 16, 17, 23, 24, 25, 47, 48, 95, 96] {
        let before = [&many_stems(18, count)[..], &one_move()].concat();
        let bytes = usize::div_ceil(count, 8);
        let spare = 8 * bytes - count;
        let mut full = vec![255; bytes];
        if let Some(last) = full.last_mut() {
            *last <<= spare;
        }
        to.push(ended(&[&before, &[19], &full]));
        to.push(ended(&[&before, &[19], &vec![0; bytes]]));
        // Two masks, and a point between them.
        to.push(ended(&[&before, &[19], &full, &with(&[3], &[4]), &[19], &full]));
        for bit in 0..spare {
            let mut over = full.clone();
            over[bytes - 1] |= 1 << bit;
            let program = ended(&[&before, &[19], &over]);
            assert!(machine::points(&program).is_err());
            to.push(program);
        }
        if bytes > 0 {
            // A byte less: the 14 is read as the last one.
            to.push(ended(&[&before, &[19], &full[1..]]));
            to.push([&before[..], &[19], &full[1..]].concat());
        }
    }
}

/// Programs whose box says which points count.
fn drawings() -> Vec<Vec<u8>> {
    let mut half = Vec::new();
    fraction(&mut half, 0x8000);
    fraction(&mut half, -0x8001);
    half.push(21);
    let mut least = Vec::new();
    for units in [1, -1, i32::MAX, i32::MIN] {
        fraction(&mut least, units);
        least.push(22);
        fraction(&mut least, units);
        least.push(4);
    }
    let far: Vec<u8> = with(&[32767, -32768], &[21]).repeat(1000);
    vec![
        // The start is no point; a move is one, a last move too.
        ended(&[&with(&[100, 100], &[21])]),
        ended(&[&with(&[-100, -100], &[21]), &with(&[50, 50], &[5])]),
        ended(&[&with(&[10], &[22]), &with(&[10], &[4]), &with(&[-500, 600], &[21])]),
        ended(&[&with(&[10, 0], &[5])]),
        // The width is none.
        ended(&[&with(&[-30000, 1, 2], &[21])]),
        ended(&[&with(&[30000, 5], &[22])]),
        ended(&[&with(&[30000, 5], &[4])]),
        // Control points reach beyond the ends, each of the three by turns.
        ended(&[&one_move(), &with(&[900, 900, -900, -900, 1, 1], &[8])]),
        ended(&[&one_move(), &with(&[0, 0, -900, 900, 900, -900], &[8])]),
        ended(&[&one_move(), &with(&[0, 0, 0, 0, 900, -900], &[8])]),
        // A curve after a curve begins where that one ends.
        ended(&[
            &one_move(),
            &with(&[1, 2, 3, 4, 5, 6, -60, -50, -40, -30, -20, -10], &[8]),
        ]),
        // A flex: each of its six points by turns; its height is none.
        ended(&[
            &one_move(),
            &with(&[700, 0, -700, 0, 0, 0, 0, 0, 0, 0, 0, 0, 50], &[12, 35]),
        ]),
        ended(&[
            &one_move(),
            &with(&[0, 0, 700, -700, -700, 700, 0, 0, 0, 0, 0, 0, 50], &[12, 35]),
        ]),
        ended(&[
            &one_move(),
            &with(&[0, 0, 0, 0, 0, 700, 0, -700, 0, 0, 0, 0, 50], &[12, 35]),
        ]),
        ended(&[
            &one_move(),
            &with(&[0, 0, 0, 0, 0, 0, -700, 0, 700, 0, 0, 0, 50], &[12, 35]),
        ]),
        ended(&[
            &one_move(),
            &with(&[0, 0, 0, 0, 0, 0, 0, 0, 0, -700, 0, 700, 50], &[12, 35]),
        ]),
        ended(&[
            &one_move(),
            &with(&[0, 0, 0, 0, 0, 0, 0, 0, 0, 0, 700, 700, 50], &[12, 35]),
        ]),
        ended(&[
            &one_move(),
            &with(&[1, 1, 1, 1, 1, 1, 1, 1, 1, 1, 1, 1, 32767], &[12, 35]),
        ]),
        // Halves, single units, the ends of each form of a number.
        ended(&[&half]),
        ended(&[&least]),
        ended(&[
            &with(&[107, -107], &[21]),
            &with(&[108, -108], &[21]),
            &with(&[1131, -1131], &[21]),
        ]),
        ended(&[&with(&[1132, -1132], &[21]), &with(&[32767, -32768], &[21])]),
        // Far out, over many moves.
        ended(&[&far]),
    ]
}

// ---------------------------------------------------------------------------
// Windows
// ---------------------------------------------------------------------------

/// Windows at the edges of a box: each pair of edges of one axis, with the other axis held, met, missed or empty.
fn windows(b: &Bounds) -> Vec<Bounds> {
    let mut all = Vec::new();
    for axis in 0..2 {
        let edges = |axis: usize| {
            let (low, high) = (b[axis], b[axis + 2]);
            [i64::MIN, low - 1, low, low + 1, high - 1, high, high + 1, i64::MAX]
        };
        let (low, high) = (b[1 - axis], b[3 - axis]);
        for from in edges(axis) {
            for to in edges(axis) {
                for (other_from, other_to) in [(low, high), (i64::MIN, low), (high + 1, i64::MAX), (high, low - 1)] {
                    let mut w = [0; 4];
                    (w[axis], w[axis + 2], w[1 - axis], w[3 - axis]) = (from, to, other_from, other_to);
                    all.push(w);
                }
            }
        }
    }
    all
}

/// A window near a box.
fn window(r: &mut Random, b: &Bounds) -> Bounds {
    let mut w = [0; 4];
    for (side, place) in w.iter_mut().enumerate() {
        let near = if r.once_in(4) { b[(side + 2) % 4] } else { b[side] };
        *place = match r.below(12) {
            0 => r.pick(&[i64::MIN, i64::MAX, 0]),
            1..=4 => near,
            5..=7 => near + r.between(-1, 1),
            8 => near + r.between(-65536, 65536),
            _ if side < 2 => near - r.between(0, 1 << 22),
            _ => near + r.between(0, 1 << 22),
        };
    }
    w
}

// ---------------------------------------------------------------------------
// Random programs
// ---------------------------------------------------------------------------

fn operand(r: &mut Random, out: &mut Vec<u8>) {
    match r.below(16) {
        0 => fraction(out, r.next() as i32),
        1 => fraction(out, r.between(-300_000, 300_000) as i32),
        2 => int(
            out,
            r.pick(&[107, 108, 1131, 1132, -107, -108, -1131, -1132, 32767, -32768]),
        ),
        3..=5 => int(out, 0),
        6 => int(out, r.between(-3000, 3000) as i32),
        _ => int(out, r.between(-150, 150) as i32),
    }
}

/// A program that the machine runs to its end.
pub fn program(r: &mut Random) -> Vec<u8> {
    let mut out = Vec::new();
    let mut declared = 0;
    let mut width = r.once_in(2);
    for at in 0..r.below(8) {
        let (op, each, many) = match r.below(12) {
            0 | 1 if at < 4 => OPERATORS[r.below(4) as usize],
            2 if declared > 0 => OPERATORS[4],
            3..=5 => OPERATORS[r.between(5, 7) as usize],
            6 | 7 => OPERATORS[8],
            8 | 9 => OPERATORS[9],
            10 => OPERATORS[10],
            _ => OPERATORS[5],
        };
        let uses = if many && each > 0 { 1 + r.below(3) as usize } else { 1 };
        if op.len() == 1 && STEMS.contains(&op[0]) {
            declared += uses;
        }
        for _ in 0..uses * each + usize::from(std::mem::take(&mut width)) {
            operand(r, &mut out);
        }
        out.extend(op);
        if op == [19] {
            let mut mask = r.bytes(usize::div_ceil(declared, 8));
            let spare = 8 * mask.len() - declared;
            if let Some(last) = mask.last_mut() {
                *last = *last >> spare << spare;
            }
            out.extend(mask);
        }
    }
    out.push(14);
    assert!(machine::points(&out).is_ok());
    out
}

/// A copy with bytes changed, dropped, added or cut.
pub fn damaged(r: &mut Random, program: &[u8]) -> Vec<u8> {
    let mut bad = program.to_vec();
    for _ in 0..1 + r.below(2) {
        let at = r.below(bad.len() as u64 + 1) as usize;
        match r.below(5) {
            0 => bad.truncate(at),
            1 if at < bad.len() => {
                bad.remove(at);
            }
            2 => bad.insert(at, r.byte()),
            3 => bad.insert(at, r.pick(&[1, 3, 4, 5, 8, 14, 18, 19, 21, 22, 23, 139])),
            _ if at < bad.len() => bad[at] = r.byte(),
            _ => {}
        }
    }
    bad
}

/// A window near the box of a program, or near 0 where there is none.
pub fn window_of(r: &mut Random, program: &[u8]) -> Bounds {
    let (_, b, _) = machine::answer(program, &[0; 4]);
    window(r, &b)
}

// ---------------------------------------------------------------------------
// Files
// ---------------------------------------------------------------------------

fn add(to: &mut Vectors, program: &[u8], w: &Bounds) {
    let (number, b, verdict) = machine::answer(program, w);
    let mut fields = Fields::new().short_string(program);
    for v in *w {
        fields = fields.short_signed(v);
    }
    fields = fields.short(number);
    for v in b {
        fields = fields.short_signed(v);
    }
    to.add(fields.short(verdict));
}

/// How many random programs are recorded, and as many damaged copies.
const PROGRAMS: usize = 1500;

pub fn stated(r: &mut Random, to: &mut Vectors) {
    // Requests: within at a point, outside.
    add(to, &[0x8B, 0x16, 0x0E], &[0; 4]);
    add(to, &[0xEF, 0xEF, 0x15, 0x0E], &[0, 0, 65536, 65536]);
    // A glyph that draws nothing.
    for program in [
        &[][..],
        &[14],
        &[139, 14],
        &[140, 141, 1, 14],
        &[140, 141, 1, 19, 128, 14],
        &[19, 14],
    ] {
        add(to, program, &[i64::MIN, i64::MIN, i64::MAX, i64::MAX]);
    }
    let mut programs = Vec::new();
    faults_and_neighbours(&mut programs);
    operand_counts(&mut programs);
    masks(&mut programs);
    for program in &programs {
        add(to, program, &window_of(r, program));
    }
    for program in drawings() {
        for _ in 0..3 {
            add(to, &program, &window_of(r, &program));
        }
    }
    // A point, a line across, a box.
    for program in [
        ended(&[&with(&[3, -4], &[21])]),
        ended(&[&with(&[3, -4], &[21]), &with(&[10, 0], &[5])]),
        ended(&[&with(&[-3, -4], &[21]), &with(&[10, 20], &[5])]),
    ] {
        let (_, b, _) = machine::answer(&program, &[0; 4]);
        for w in windows(&b) {
            add(to, &program, &w);
        }
    }
    for _ in 0..PROGRAMS {
        let good = program(r);
        add(to, &good, &window_of(r, &good));
        let bad = damaged(r, &good);
        add(to, &bad, &window_of(r, &bad));
    }
}

/// The least and the greatest whole units that are at most 1 away from a coordinate; the coordinate itself where it is to
/// be met exactly. Scaling by a power of two is exact, and so are whole numbers of this size.
fn allowed(v: f64, exact: bool) -> (i64, i64) {
    let units = v * 65536.0;
    assert!(units.abs() < (1u64 << 52) as f64);
    let (low, high) = (units.ceil() as i64 - 1, units.floor() as i64 + 1);
    if exact {
        assert!(units.fract() == 0.0, "{v} is no whole number of units");
        return (low + 1, high - 1);
    }
    (low, high)
}

/// A finished charstring of the glyph, with its width or without.
fn finished(r: &mut Random, width: f64, program: &[u8]) -> Vec<u8> {
    let glyph = oracle::glyph(width, program.to_vec());
    let rounded = oracle::quantize(width);
    let default = if r.once_in(3) { rounded } else { -1.0 };
    let nominal = r.between(0, 1000) as f64;
    let done = glyph.charstring(default, nominal);
    done.unwrap_or_else(|_| glyph.charstring(rounded, 0.0).expect("no width is written"))
}

/// The random glyphs of convert.vec that convert, finished, with the box of the folded points of the Rust's run.
pub fn of_runs(r: &mut Random, to: &mut Vectors) {
    glyphs::random_glyphs(|input: &Input, m: &Matrix, width: f64, program: &[u8]| {
        let points = oracle::folded_points(&input.charstring, &input.subrs, input.len_iv, m).expect("it converts");
        let divided = oracle::watched(&input.charstring, &input.subrs, input.len_iv, m, &oracle::NO_STORES).divided;
        let exact = glyphs::is_identity(m) && !divided;
        let done = finished(r, width, program);
        let (number, b, _) = machine::answer(&done, &[0; 4]);
        let mut fields = Fields::new().short_string(&done).short(number);
        assert!((number != 0) == points.is_empty());
        if number != 0 {
            to.add(fields);
            return;
        }
        let least = |v: fn(&(f64, f64)) -> f64| points.iter().map(v).fold(f64::INFINITY, f64::min);
        let greatest = |v: fn(&(f64, f64)) -> f64| points.iter().map(v).fold(f64::NEG_INFINITY, f64::max);
        let sides = [least(|p| p.0), least(|p| p.1), greatest(|p| p.0), greatest(|p| p.1)];
        for (v, side) in sides.into_iter().zip(b) {
            let (low, high) = allowed(v, exact);
            // `machine` meets it too.
            assert!(low <= side && side <= high);
            fields = fields.short_signed(low).short_signed(high);
        }
        to.add(fields);
    });
}
