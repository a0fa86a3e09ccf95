//! The parts that convert.

use crate::Worker;
use crate::case::{Bank, Case, Finish, Outcome, Rooms};
use crate::charstring::decrypt_charstring;
use crate::cipher::{NOT_ENCRYPTED, encrypt};
use crate::font::Font;
use crate::generate::{self, Glyph, LONG, SHORT};
use crate::glyphs;
use crate::random::Random;
use crate::strict;
use std::sync::Arc;

const IDENTITY: [f64; 6] = [1.0, 0.0, 0.0, 1.0, 0.0, 0.0];

/// Matrices of the fixed parts: as it is, scaled, slanted, turned, flipped, by thirds, by a thousandth and moved.
pub const MATRICES: [[f64; 6]; 9] = [
    IDENTITY,
    [0.5, 0.0, 0.0, 0.5, 0.0, 0.0],
    [1.0, 0.0, 0.212_556_561_670_022, 1.0, 0.0, 0.0],
    [0.0, 1.0, -1.0, 0.0, 700.0, 0.0],
    [-1.0, 0.0, 0.0, 1.0, 500.0, 0.0],
    [1.0, 0.0, 0.0, -1.0, 0.0, 0.1],
    [1.0 / 3.0, 0.0, 0.0, 2.0 / 3.0, 0.5, -0.25],
    [0.001, 0.0, 0.0, 0.001, 0.0, 0.0],
    [0.9, 0.1, -0.2, 1.1, 13.7, -21.0],
];

const SMALL: Rooms = Rooms {
    records: 12,
    words: 14 * 12,
    output: 120,
};

fn plain(charstring: Vec<u8>, bank: &Arc<Bank>) -> Case {
    Case {
        charstring,
        bank: bank.clone(),
        len_iv: NOT_ENCRYPTED,
        matrix: IDENTITY,
        rooms: SMALL,
        finish: None,
    }
}

/// Subroutines of the exhaustive parts: a move, a stem, one that ends the glyph, one that calls the first.
fn few_bodies() -> Arc<Bank> {
    Bank::of_bodies(vec![
        vec![0x8C, 0x16, 0x0B],
        vec![0x95, 0x95, 0x01, 0x0B],
        vec![0x0E],
        vec![0x8B, 0x0A],
    ])
}

/// Every charstring of up to two bytes, and of three where `--tokens` is over 3.
pub fn bytes(w: &mut Worker) {
    let bank = few_bodies();
    let longest = if w.settings.tokens > 3 { 3 } else { 2 };
    for length in 0..=longest {
        let all = 256u64.pow(length);
        let mut at = w.number;
        while at < all && !w.has_enough() {
            let code = at.to_be_bytes()[8 - length as usize..].to_vec();
            w.compare_case(&plain(code, &bank));
            at += w.of;
        }
    }
}

/// Every sequence of up to `length` of the pieces, from the shortest.
fn sequences(w: &mut Worker, pieces: &[Vec<u8>], length: usize, mut each: impl FnMut(&mut Worker, u64, Vec<u8>)) {
    for n in 0..=length {
        let all = (pieces.len() as u64).pow(n as u32);
        let mut at = w.number;
        while at < all && !w.has_enough() {
            let mut code = Vec::new();
            let mut rest = at;
            for _ in 0..n {
                code.extend(&pieces[(rest % pieces.len() as u64) as usize]);
                rest /= pieces.len() as u64;
            }
            each(w, at, code);
            at += w.of;
        }
    }
}

const OPERATORS: [u8; 19] = [1, 2, 3, 4, 5, 6, 7, 8, 9, 10, 11, 13, 14, 15, 21, 22, 30, 31, 0];
const ESCAPES: [u8; 11] = [0, 1, 2, 6, 7, 12, 16, 17, 33, 3, 34];

/// Operators alone, escapes and a few numbers, one after another.
pub fn tokens(w: &mut Worker) {
    let bank = few_bodies();
    let mut pieces: Vec<Vec<u8>> = OPERATORS.iter().map(|&op| vec![op]).collect();
    pieces.extend(ESCAPES.iter().map(|&op| vec![12, op]));
    pieces.extend([
        vec![0x8A],
        vec![0x8B],
        vec![0x8C],
        vec![0x8D],
        vec![0x8E],
        vec![0xF8, 0x88],
        vec![0xFF],
    ]);
    sequences(w, &pieces, w.settings.tokens, |w, _, code| {
        w.compare_case(&plain(code, &bank))
    });
}

/// Operators with their operands.
fn whole_operators() -> Vec<Vec<u8>> {
    let mut all: Vec<Vec<u8>> = [
        &[0x8B, 0x95, 1][..],
        &[0x9F, 0x95, 1],
        &[0xEF, 0x76, 1],
        &[0xEF, 0x77, 3],
        &[0x8B, 0x95, 3],
        &[0x90, 4],
        &[0x8E, 0x8F, 5],
        &[0x8E, 6],
        &[0x8A, 7],
        &[0x8C, 0x8D, 0x8E, 0x8F, 0x90, 0x91, 8],
        &[9],
        &[0x8B, 10],
        &[0x8C, 10],
        &[0x8E, 10],
        &[11],
        &[0x95, 0xF8, 0x88, 13],
        &[14],
        &[0x8C, 0x8A, 21],
        &[0x8C, 0x8E, 12, 12, 22],
        &[0x8C, 0x8D, 0x8E, 0x8F, 30],
        &[0x8F, 0x8E, 0x8D, 0x8C, 31],
        &[12, 0],
        &[0x8B, 0x8C, 0x95, 0x8C, 0x9F, 0x8C, 12, 1],
        &[0x8B, 0x8C, 0x95, 0x8C, 0x9F, 0x8C, 12, 2],
        &[0x8C, 0x8D, 0xEF, 0x8B, 12, 7],
        &[0x8C, 0x8D, 12, 12],
        &[0x8B, 0x8C, 12, 16],
        &[0x8B, 0x8D, 12, 16],
        &[0x8B, 0x8B, 12, 16],
        &[0xBD, 0x8B, 0x8B, 0x8E, 0x8B, 12, 16],
        &[0x8C, 0x8C, 0x8E, 12, 16],
        &[0x8C, 0x8D, 0x8D, 0x94, 12, 16],
        &[12, 17],
        &[0x8C, 0x8D, 12, 33],
        &[0x8C],
    ]
    .iter()
    .map(|p| p.to_vec())
    .collect();
    // A flex up to its end.
    let mut flex = vec![0x8B, 0x8C, 12, 16];
    for _ in 0..7 {
        flex.extend([0x8C, 0x8D, 21, 0x8B, 0x8D, 12, 16]);
    }
    all.push(flex);
    all
}

/// Every sequence of operators with their operands; the matrices by turns.
pub fn phrases(w: &mut Worker) {
    let bank = few_bodies();
    let pieces = whole_operators();
    sequences(w, &pieces, w.settings.tokens, |w, at, code| {
        let mut case = plain(code, &bank);
        case.matrix = MATRICES[(at / 7 % 9) as usize];
        if at % 5 == 0 {
            case.finish = Some(Finish {
                default: 500.0,
                nominal: 0.0,
                output: 130,
            });
        }
        w.compare_case(&case);
    });
}

/// Room around what is used: just enough, one short, spare, or any.
fn around(r: &mut Random, used: usize, unit: usize) -> usize {
    match r.below(16) {
        0 => used.saturating_sub(1),
        1 => used + 1,
        2 => used + unit - 1,
        3 => used + unit,
        4 => used.saturating_sub(unit),
        5 => r.below(used as u64 + 2 * unit as u64) as usize,
        6 => 0,
        7 => used + 64,
        _ => used,
    }
}

fn rooms_around(r: &mut Random, used: Rooms) -> Rooms {
    if r.once_in(3) {
        return used;
    }
    Rooms {
        records: around(r, used.records, 1),
        words: around(r, used.words, 14),
        output: around(r, used.output, 5),
    }
}

fn finish_around(r: &mut Random, outcome: &Outcome, output: usize) -> Finish {
    let width = outcome.width();
    let output = output + r.below(3) as usize;
    Finish {
        default: r.pick(&[width, 500.0, 0.0, f64::NAN, f64::INFINITY, -0.0]),
        nominal: r.pick(&[0.0, 500.0, 600.25, width, -30_000.0, 40_000.0, f64::NAN, 1e300]),
        output: around(r, output, 5),
    }
}

/// A case in rooms around what it uses, sometimes finished in the same call.
fn compare_around(w: &mut Worker, mut case: Case) {
    let outcome = case.outcome();
    let used = outcome.used();
    case.rooms = rooms_around(&mut w.random, used);
    if w.random.once_in(4) {
        case.finish = Some(finish_around(&mut w.random, &outcome, used.output));
    }
    w.compare(&case, &outcome);
    // The same input again, with one room short.
    if outcome.converts() && w.random.once_in(6) {
        case.rooms = used;
        let room = match w.random.below(3) {
            0 => &mut case.rooms.records,
            1 => &mut case.rooms.words,
            _ => &mut case.rooms.output,
        };
        *room = room.saturating_sub(1);
        w.compare(&case, &outcome);
    }
}

const LEN_IVS: [usize; 12] = [NOT_ENCRYPTED, NOT_ENCRYPTED, NOT_ENCRYPTED, 4, 4, 4, 0, 0, 1, 2, 5, 17];

fn encrypted_case(r: &mut Random, g: &Glyph) -> Case {
    let input = generate::encrypted(r, g);
    let mut case = plain(input.charstring, &Bank::of_bodies(input.subrs));
    case.len_iv = input.len_iv;
    case.matrix = if r.once_in(3) {
        r.pick(&MATRICES)
    } else {
        generate::matrix(r).to_array()
    };
    if r.once_in(300) {
        case.matrix[r.below(6) as usize] = r.pick(&[f64::NAN, f64::INFINITY, f64::NEG_INFINITY]);
    }
    if r.once_in(300) {
        // A lenIV that the charstrings were not made for.
        case.len_iv = r.pick(&[0, 1, 3, 4, 6, 30, 300, NOT_ENCRYPTED - 1, NOT_ENCRYPTED]);
    }
    case
}

fn random_glyph(r: &mut Random) -> Glyph {
    let bounds = if r.once_in(6) { &LONG } else { &SHORT };
    let mut g = generate::glyph(r, bounds);
    g.len_iv = r.pick(&LEN_IVS);
    g
}

pub fn random(w: &mut Worker) {
    let share = w.share();
    while w.tally.cases < share && !w.has_enough() {
        let g = random_glyph(&mut w.random);
        let case = encrypted_case(&mut w.random, &g);
        compare_around(w, case);
    }
}

/// Groups of stems of a pool of up to 110, in any order, rising or falling, each with a line: tables and masks.
pub fn groups(w: &mut Worker) {
    let share = w.share();
    while w.tally.cases < share && !w.has_enough() {
        let r = &mut w.random;
        let size = r.between(1, 110);
        let pool: Vec<(u8, i32, i32)> = (0..size)
            .map(|_| {
                let width = r.pick(&[-21, -20, -3, 0, 1, 2, 3, 20]);
                (r.pick(&[1, 3]), r.between(-30, 30) as i32, width)
            })
            .collect();
        let mut code = Vec::new();
        for _ in 0..r.between(1, 8) {
            let mut stems: Vec<_> = (0..r.below(50)).map(|_| r.pick(&pool)).collect();
            match r.below(3) {
                0 => {}
                1 => stems.sort(),
                _ => stems.sort_by(|a, b| b.cmp(a)),
            }
            number(&mut code, 0);
            number(&mut code, 3);
            code.extend([12, 16]);
            for (op, pos, width) in stems {
                number(&mut code, pos);
                number(&mut code, width);
                code.push(op);
            }
            number(&mut code, 1);
            code.push(6);
        }
        let g = Glyph {
            plain: code,
            subrs: Vec::new(),
            len_iv: NOT_ENCRYPTED,
        };
        let case = encrypted_case(&mut w.random, &g);
        compare_around(w, case);
    }
}

/// Copies with up to four bytes damaged, and banks with some.
pub fn damaged(w: &mut Worker) {
    let share = w.share();
    while w.tally.cases < share && !w.has_enough() {
        let mut g = random_glyph(&mut w.random);
        for _ in 0..=w.random.below(4) {
            g = generate::damaged(&mut w.random, &g);
        }
        let mut case = encrypted_case(&mut w.random, &g);
        if w.random.once_in(5) {
            let r = &mut w.random;
            let mut bad = case.bank.bytes.clone();
            let table = 2 + 4 * (g.subrs.len() + 1);
            let at = r.below(table as u64) as usize;
            match r.below(6) {
                0 => bad.truncate(r.below(bad.len() as u64) as usize),
                1 => bad.push(r.byte()),
                2 => bad[at] = r.byte(),
                3 => bad[at] = bad[at].wrapping_add(1),
                4 => bad[at] = bad[at].wrapping_sub(1),
                _ => bad.insert(at, r.byte()),
            }
            case.bank = Bank::of_bytes(bad);
        }
        if w.random.once_in(5) && !case.charstring.is_empty() {
            // Damage to what is encrypted.
            let at = w.random.below(case.charstring.len() as u64) as usize;
            case.charstring[at] = w.random.byte();
        }
        compare_around(w, case);
    }
}

/// Random bytes, mostly numbers and operators.
pub fn noise(w: &mut Worker) {
    let share = w.share();
    let bank = few_bodies();
    let pieces = whole_operators();
    while w.tally.cases < share && !w.has_enough() {
        let r = &mut w.random;
        let mut code = Vec::new();
        for _ in 0..r.below(40) {
            match r.below(12) {
                0 => code.push(r.byte()),
                1 => code.push(r.pick(&OPERATORS)),
                2 => code.extend([12, r.pick(&ESCAPES)]),
                3..=5 => code.push(r.between(32, 246) as u8),
                6 => code.extend([r.between(247, 254) as u8, r.byte()]),
                7 => {
                    code.push(255);
                    code.extend(r.bytes(4));
                }
                _ => {
                    let at = r.below(pieces.len() as u64) as usize;
                    code.extend(&pieces[at]);
                }
            }
        }
        let mut case = plain(code, &bank);
        case.matrix = if r.once_in(2) { IDENTITY } else { r.pick(&MATRICES) };
        compare_around(w, case);
    }
}

/// The oracle's stated inputs and edges, under every matrix.
pub fn stated(w: &mut Worker) {
    let inputs = glyphs::stated_inputs().into_iter().chain(glyphs::edge_inputs());
    for (at, input) in inputs.enumerate() {
        if !w.takes(at as u64) {
            continue;
        }
        let bank = Bank::of_bodies(input.subrs);
        for matrix in MATRICES {
            for _ in 0..12 {
                let mut case = plain(input.charstring.clone(), &bank);
                case.len_iv = input.len_iv;
                case.matrix = matrix;
                compare_around(w, case);
            }
        }
        for i in 0..6 {
            for bad in [f64::NAN, f64::INFINITY, f64::NEG_INFINITY] {
                let mut case = plain(input.charstring.clone(), &bank);
                case.len_iv = input.len_iv;
                case.matrix[i] = bad;
                w.compare_case(&case);
            }
        }
    }
}

fn number(out: &mut Vec<u8>, v: i32) {
    match v {
        -107..=107 => out.push((v + 139) as u8),
        108..=1131 => out.extend([((v - 108) / 256 + 247) as u8, ((v - 108) % 256) as u8]),
        -1131..=-108 => out.extend([((-v - 108) / 256 + 251) as u8, ((-v - 108) % 256) as u8]),
        _ => {
            out.push(255);
            out.extend(v.to_be_bytes());
        }
    }
}

/// About one of the counts at which something changes.
fn near(r: &mut Random, counts: &[i64]) -> i32 {
    let count = r.pick(counts);
    (count + r.between(-2, 2)).max(0) as i32
}

fn many_stems(r: &mut Random, out: &mut Vec<u8>, count: i32, first: i32) {
    let step = r.pick(&[1, 1, 3, 25]);
    for i in 0..count {
        number(out, (first + i) * step);
        number(out, r.pick(&[1, 1, 1, 10, -20, -21]));
        out.push(r.pick(&[1, 1, 3]));
    }
}

/// Pieces whose size is near a limit.
fn limit_piece(r: &mut Random, out: &mut Vec<u8>) {
    match r.below(12) {
        0 => {
            let count = near(r, &[7, 8, 23, 24, 46, 48, 96, 256]);
            many_stems(r, out, count, 0);
            out.extend([0x8C, 22]);
        }
        1 => {
            // Groups: OtherSubr 3, a stem or two or none, a line.
            let count = near(r, &[2, 3, 8, 96, 256]);
            for i in 0..count {
                out.extend([0x8B, 0x8E, 12, 16]);
                let stems = r.pick(&[1, 1, 2, 0]);
                many_stems(r, out, stems, i % 90);
                out.extend([0x8C, 6]);
            }
        }
        2 => {
            let count = near(r, &[1, 6, 24, 48, 256]);
            for _ in 0..count {
                let v = r.between(-200, 200) as i32;
                number(out, v);
            }
            out.extend(r.pick(&[&[21u8][..], &[8], &[12, 2], &[9], &[12, 12], &[12, 33], &[12, 7]]));
        }
        3 => {
            // The PostScript stack, by turns.
            let mut left = near(r, &[1, 3, 24, 256]);
            let total = left;
            while left > 0 {
                let some = left.min(r.between(1, 90) as i32);
                for i in 0..some {
                    number(out, i);
                }
                number(out, some);
                out.extend([r.pick(&[0x8F, 0x8E, 0xC8]), 12, 16]);
                left -= some;
            }
            for _ in 0..near(r, &[0, 1, i64::from(total)]) {
                out.extend([12, 17]);
                if r.once_in(3) {
                    out.push(9);
                }
            }
        }
        4 => {
            for _ in 0..near(r, &[1, 23, 24, 46]) {
                let (x, y) = (r.between(-3, 3) as i32, r.between(-3, 3) as i32);
                number(out, x);
                number(out, y);
                out.push(5);
            }
        }
        5 => {
            for _ in 0..near(r, &[1, 7, 8, 14]) {
                for _ in 0..6 {
                    let v = r.between(-150, 150) as i32;
                    number(out, v);
                }
                out.push(8);
            }
        }
        6 => {
            // Numbers at the ends of a Type 2 number's range, alone and by steps.
            let far = near(r, &[32767, 32768, 16384, 32000]) * r.pick(&[1, -1]);
            number(out, far);
            out.push(r.pick(&[22, 4, 6, 7]));
            if r.once_in(2) {
                number(out, -far);
                number(out, r.pick(&[0, 1, -1]));
                out.push(r.pick(&[21, 5]));
            }
        }
        7 => {
            // Quotients near a multiple of 1/65536, of a half of it, of a whole number.
            let a = r.between(-2_000_000, 2_000_000) as i32;
            let b = r.pick(&[
                3,
                7,
                65_536,
                131_072,
                262_144,
                1000,
                999_999_937,
                1_000_000_007,
                2_000_000_000,
            ]);
            number(out, a);
            number(out, b);
            out.extend([12, 12]);
            if r.once_in(3) {
                number(out, r.pick(&[1, 2, 3, 65_536, 30_000]));
                number(out, r.pick(&[1, 7, 65_536]));
                out.extend([12, 12, 12, 12]);
            }
            out.push(r.pick(&[22, 4, 6, 7]));
        }
        8 => {
            // A flex of about seven points.
            out.extend([0x8B, 0x8C, 12, 16]);
            for _ in 0..near(r, &[7, 7, 7, 7, 8]) {
                out.extend([0x8C, 0x8D, 21, 0x8B, 0x8D, 12, 16]);
            }
            out.extend([0xBD, 0x8B, 0x8B, 0x8E, 0x8B, 12, 16]);
        }
        9 => {
            let count = near(r, &[1, 32, 33, 34]);
            out.push(0x8C);
            for _ in 0..count {
                out.extend([0x8C, 0xFF, 0x7F, 0xFF, 0xFF, 0xFF, 12, 12, 12, 12]);
            }
            out.extend(r.pick(&[&[22u8][..], &[4], &[6], &[0x8C, 1], &[0x8C, 3], &[0x8C, 13], &[9]]));
        }
        10 => {
            let n = r.between(0, 11) as i32;
            number(out, n);
            out.push(10);
        }
        _ => out.extend([0x8C, 0x8D, r.pick(&[21, 5]), 9]),
    }
}

/// Counts near document 01's limits.
pub fn limits(w: &mut Worker) {
    let share = w.share() / 4;
    while w.tally.cases < share && !w.has_enough() {
        let r = &mut w.random;
        let depth = r.pick(&[9, 10, 11, 12]);
        let mut subrs = Vec::new();
        for n in 0..depth {
            let mut body = Vec::new();
            if r.once_in(6) {
                limit_piece(r, &mut body);
            }
            number(&mut body, n + 1);
            body.push(10);
            if r.once_in(2) {
                body.push(11);
            }
            subrs.push(body);
        }
        subrs.push(vec![0x8C, 22]);
        let mut plain_code = Vec::new();
        for _ in 0..=r.below(4) {
            limit_piece(r, &mut plain_code);
        }
        let g = Glyph {
            plain: plain_code,
            subrs,
            len_iv: r.pick(&LEN_IVS),
        };
        let case = encrypted_case(r, &g);
        compare_around(w, case);
    }
}

/// Every room from none to one more than is used, of each store and of the output.
pub fn rooms(w: &mut Worker) {
    let share = w.share() / 2;
    while w.tally.cases < share && !w.has_enough() {
        let g = random_glyph(&mut w.random);
        let mut case = encrypted_case(&mut w.random, &g);
        let outcome = case.outcome();
        let used = outcome.used();
        if used.words == 0 || used.output > 200 {
            continue;
        }
        for records in 0..=used.records + 1 {
            case.rooms = Rooms { records, ..used };
            w.compare(&case, &outcome);
        }
        for words in 0..=used.words + 15 {
            case.rooms = Rooms { words, ..used };
            w.compare(&case, &outcome);
        }
        for output in 0..=used.output + 1 {
            case.rooms = Rooms { output, ..used };
            w.compare(&case, &outcome);
        }
        for _ in 0..10 {
            let r = &mut w.random;
            case.rooms = Rooms {
                records: r.below(used.records as u64 + 2) as usize,
                words: r.below(used.words as u64 + 15) as usize,
                output: r.below(used.output as u64 + 2) as usize,
            };
            w.compare(&case, &outcome);
        }
    }
}

/// Bytes run near 1,048,576: one charstring, or bodies called again and again, that return at once or run.
pub fn long(w: &mut Worker) {
    let most = 1_048_576usize;
    let mut at = 0;
    for total in [most - 1, most, most + 1, most + 2] {
        for (len_iv, fill) in [(NOT_ENCRYPTED, 9u8), (4, 9), (0, 0x8C), (4, 0x0E)] {
            at += 1;
            if !w.takes(at) {
                continue;
            }
            let skipped = if len_iv == NOT_ENCRYPTED { 0 } else { len_iv };
            let mut code = vec![fill; total - skipped];
            if fill == 0x8C {
                // No more than 200 numbers between two closepaths.
                code.iter_mut().step_by(200).for_each(|b| *b = 9);
            }
            let charstring = encrypt(&mut w.random, &code, len_iv);
            let mut case = plain(charstring, &Bank::of_bodies(Vec::new()));
            case.len_iv = len_iv;
            compare_around(w, case);
        }
        for size in [1usize, 5, 100, 1000, 30_000, 500_000] {
            for len_iv in [NOT_ENCRYPTED, 4, 0] {
                at += 1;
                if !w.takes(at) {
                    continue;
                }
                let skipped = if len_iv == NOT_ENCRYPTED { 0 } else { len_iv };
                let mut body = vec![11u8];
                body.resize(size.saturating_sub(skipped).max(1), 9);
                if w.random.once_in(2) {
                    // It runs to its end.
                    body[0] = 9;
                }
                let body = encrypt(&mut w.random, &body, len_iv);
                let calls = (total - skipped) / (body.len() + 2);
                let mut code = [0x8B, 10].repeat(calls);
                code.resize(total - skipped - calls * body.len(), 9);
                let charstring = encrypt(&mut w.random, &code, len_iv);
                let mut case = plain(charstring, &Bank::of_bodies(vec![body]));
                case.len_iv = len_iv;
                compare_around(w, case);
            }
        }
    }
}

/// Banks with the most bodies that a count can tell, and calls of the first, the last, and none that is there.
pub fn banks(w: &mut Worker) {
    for (at, count) in [0usize, 1, 2, 255, 256, 257, 65_534, 65_535].into_iter().enumerate() {
        if !w.takes(at as u64) {
            continue;
        }
        let bodies = (0..count)
            .map(|i| if i % 3 == 0 { Vec::new() } else { vec![0x8C, 22, 11] })
            .collect();
        let bank = Bank::of_bodies(bodies);
        for called in [
            0,
            1,
            254,
            255,
            256,
            257,
            65_533,
            65_534,
            65_535,
            65_536,
            -1,
            i32::MAX,
            i32::MIN,
        ] {
            let mut code = Vec::new();
            number(&mut code, called);
            code.extend([10, 14]);
            compare_around(w, plain(code, &bank));
            // Just below the number: it truncates.
            let mut code = Vec::new();
            number(&mut code, called.saturating_mul(10).saturating_sub(1));
            number(&mut code, 10);
            code.extend([12, 12, 10]);
            compare_around(w, plain(code, &bank));
        }
        // A byte of the table changed.
        for _ in 0..40 {
            let mut bad = bank.bytes.clone();
            let place = w.random.below(bad.len().min(2 + 4 * (count + 1)) as u64) as usize;
            bad[place] = bad[place].wrapping_add(w.random.pick(&[1, 255, 128]));
            compare_around(w, plain(vec![0x8B, 10], &Bank::of_bytes(bad)));
        }
    }
}

/// A font's bodies under another lenIV.
fn with_len_iv(r: &mut Random, font: &Font, len_iv: usize) -> Font {
    let mut again = |s: &Vec<u8>| encrypt(r, &decrypt_charstring(s, font.len_iv), len_iv);
    Font {
        name: font.name.clone(),
        len_iv,
        subrs: font.subrs.iter().map(&mut again).collect(),
        glyphs: font.glyphs.iter().map(|(n, s)| (n.clone(), again(s))).collect(),
    }
}

/// Every glyph of every font, under every matrix, under other lenIVs, and damaged.
pub fn fonts(w: &mut Worker) {
    for (at, font) in w.settings.fonts.iter().enumerate() {
        if !w.takes(at as u64) || w.has_enough() {
            continue;
        }
        let bank = Bank::of_bodies(font.subrs.clone());
        for (_, charstring) in &font.glyphs {
            let mut case = plain(charstring.clone(), &bank);
            case.len_iv = font.len_iv;
            for matrix in MATRICES {
                case.matrix = matrix;
                compare_around(w, case.clone());
            }
            if !charstring.is_empty() {
                let at = w.random.below(charstring.len() as u64) as usize;
                case.charstring[at] ^= 1 << w.random.below(8);
                case.matrix = w.random.pick(&MATRICES);
                compare_around(w, case);
            }
        }
        for len_iv in [0, 1, NOT_ENCRYPTED] {
            let other = with_len_iv(&mut w.random, font, len_iv);
            let bank = Bank::of_bodies(other.subrs);
            for (_, charstring) in other.glyphs {
                let mut case = plain(charstring, &bank);
                case.len_iv = len_iv;
                case.matrix = w.random.pick(&MATRICES);
                compare_around(w, case);
            }
        }
    }
}

/// Charstrings that come to hold about 24 operands, brought in every way, and pieces near a limit between.
pub fn strict(w: &mut Worker) {
    let bank = few_bodies();
    for (at, code) in strict::edges().into_iter().enumerate() {
        if w.takes(at as u64) {
            compare_around(w, plain(code, &bank));
        }
    }
    let share = w.share();
    while w.tally.cases < share && !w.has_enough() {
        let r = &mut w.random;
        let mut g = strict::glyph(r, |r, code| {
            if r.once_in(4) {
                limit_piece(r, code);
            }
        });
        g.len_iv = r.pick(&LEN_IVS);
        let case = encrypted_case(r, &g);
        compare_around(w, case);
    }
}
