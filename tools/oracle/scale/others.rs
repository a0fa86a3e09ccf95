//! The parts that finish, choose widths, decrypt and ask for boxes.

use crate::Worker;
use crate::archive;
use crate::boxes;
use crate::case::{hex, words_of};
use crate::charstring::decrypt_charstring;
use crate::cipher::NOT_ENCRYPTED;
use crate::doubles;
use crate::fence::Fence;
use crate::generate::{self, LONG, SHORT};
use crate::geometry::Matrix;
use crate::glyphs::refusal;
use crate::lent::Place;
use crate::machine;
use crate::parts::MATRICES;
use crate::random::Random;
use crate::type1_to_type2::{choose_widths, convert_charstring_transformed, oracle};

fn any_double(r: &mut Random, edges: &[f64]) -> f64 {
    match r.below(8) {
        0 => r.pick(edges),
        1 => f64::from_bits(r.next()),
        2 => doubles::decimal(r),
        3 => r.between(-2_000_000, 2_000_000) as f64 / 997.0,
        4 => r.between(-33_000, 33_000) as f64 + r.pick(&[0.0, 0.5, 1e-9, 9e-10, 1.0 / 131_072.0, 1.0 / 65_536.0]),
        5 => r.between(-4_000_000_000, 4_000_000_000) as f64 / 131_072.0,
        _ => r.between(0, 1000) as f64,
    }
}

/// What is wrong with an output that is to hold these bytes and then zeros.
fn wrong_output(out: &Place, due: &[u8]) -> bool {
    let got = out.lent();
    got[..due.len()] != *due || got[due.len()..].iter().any(|b| *b != 0) || !out.is_guarded()
}

pub fn finish(w: &mut Worker) {
    let edges = doubles::edges();
    let (mut out, mut answer, mut input) = (Place::new(), Place::new(), Fence::new());
    let share = w.share();
    while w.tally.cases < share && !w.has_enough() {
        let r = &mut w.random;
        let length = r.below(40) as usize;
        let program = r.bytes(length);
        let width = any_double(r, &edges);
        let default = match r.below(4) {
            0 => width,
            1 => oracle::quantize(width),
            _ => any_double(r, &edges),
        };
        let nominal = match r.below(4) {
            0 => width - r.between(-1200, 1200) as f64,
            _ => any_double(r, &edges),
        };
        let (mut number, mut bytes) = match oracle::glyph(width, program.clone()).charstring(default, nominal) {
            Ok(bytes) => (0, bytes),
            Err(text) => (refusal(&text), Vec::new()),
        };
        let room = match r.below(5) {
            0 => bytes.len().saturating_sub(1),
            1 => r.below(50) as usize,
            2 => bytes.len() + 1,
            _ => bytes.len(),
        };
        if bytes.len() > room {
            (number, bytes) = (18, Vec::new());
        }
        let shift = r.below(8) as usize;
        let at = input.hold(&program);
        let got = unsafe {
            archive::cribstork_finish(
                width,
                at,
                length,
                default,
                nominal,
                out.lend_bytes(room, shift),
                room,
                answer.lend_words(2).cast(),
            )
        };
        let words = words_of(&answer);
        let same = got == number && words[..2] == [number, bytes.len() as u64] && answer.is_guarded();
        if same && !wrong_output(&out, &bytes) && input.holds(&program) {
            w.count(number);
        } else {
            w.report(&format!(
                "finish: width {width:?}, program {}, default {default:?}, nominal {nominal:?}, room {room}: {words:?}, {}; due {number}, {}",
                hex(&program),
                hex(out.lent()),
                hex(&bytes)
            ));
        }
    }
}

pub fn widths(w: &mut Worker) {
    let edges = doubles::edges();
    let (mut scratch, mut pair, mut input) = (Place::new(), Place::new(), Fence::new());
    let share = w.share() / 4;
    while w.tally.cases < share && !w.has_enough() {
        let r = &mut w.random;
        let n = match r.below(3000) {
            0 => r.pick(&[65_534, 65_535, 65_536, 20_000]),
            1..=50 => r.below(3000),
            51..=500 => r.below(300),
            _ => r.below(24),
        } as usize;
        let kind = r.below(7);
        let few: Vec<f64> = (0..=r.below(5)).map(|_| any_double(r, &edges)).collect();
        let mut list: Vec<f64> = (0..n)
            .map(|i| match kind {
                0 => r.between(0, 1500) as f64,
                1 => any_double(r, &edges),
                2 => r.pick(&few),
                3 => r.pick(&[0.0, -0.0, 107.0, 214.0, 214.5, 1e-10, -1e-10]),
                4 => i as f64 * 3.5,
                5 => -(i as f64) * 107.0,
                _ => r.between(0, 40) as f64 * 26.75,
            })
            .collect();
        if r.once_in(4) {
            list.retain(|v| v.is_finite());
        }
        if r.once_in(40) && !list.is_empty() {
            let at = r.below(list.len() as u64) as usize;
            list[at] = r.pick(&[f64::NAN, f64::INFINITY, f64::NEG_INFINITY]);
        }
        let n = list.len();
        let room = match r.below(8) {
            0 => n.saturating_sub(1),
            1 => r.below(n as u64 + 2) as usize,
            2 => n + 3,
            _ => n,
        };
        let (number, due) = if list.iter().any(|v| !v.is_finite()) {
            (19, (0.0, 0.0))
        } else if room < n {
            (20, (0.0, 0.0))
        } else {
            (0, choose_widths(&list))
        };
        let bytes: Vec<u8> = list.iter().flat_map(|v| v.to_ne_bytes()).collect();
        let at = input.hold(&bytes);
        let got = unsafe {
            archive::cribstork_choose_widths(
                at.cast(),
                n,
                scratch.lend_words(room).cast(),
                room,
                pair.lend_words(2).cast(),
            )
        };
        let words = words_of(&pair);
        let same = got == number
            && words[..2] == [due.0.to_bits(), due.1.to_bits()]
            && scratch.is_zeros()
            && scratch.is_guarded()
            && pair.is_guarded()
            && input.holds(&bytes);
        if same {
            w.count(number);
        } else {
            w.report(&format!(
                "choose_widths: {list:?}, room {room}: {got}, {:?} {:?}; due {number}, {due:?}",
                f64::from_bits(words[0]),
                f64::from_bits(words[1])
            ));
        }
    }
}

pub fn decrypt(w: &mut Worker) {
    let (mut out, mut answer, mut input) = (Place::new(), Place::new(), Fence::new());
    let share = w.share();
    while w.tally.cases < share && !w.has_enough() {
        let r = &mut w.random;
        let n = if r.once_in(20) { r.below(2000) } else { r.below(40) } as usize;
        let data = r.bytes(n);
        let len_iv = match r.below(12) {
            0 => n,
            1 => n + 1,
            2 => NOT_ENCRYPTED,
            3 => NOT_ENCRYPTED - 1,
            4 => r.below(60) as usize,
            k => k as usize - 5,
        };
        let mut bytes = decrypt_charstring(&data, len_iv);
        let room = match r.below(5) {
            0 => bytes.len().saturating_sub(1),
            1 => r.below(50) as usize,
            2 => bytes.len() + 1,
            _ => bytes.len(),
        };
        let number = if bytes.len() > room { 18 } else { 0 };
        if number != 0 {
            bytes.clear();
        }
        let shift = r.below(8) as usize;
        let at = input.hold(&data);
        let got = unsafe {
            archive::cribstork_decrypt(at, n, len_iv, out.lend_bytes(room, shift), room, answer.lend_words(2).cast())
        };
        let words = words_of(&answer);
        let same = got == number && words[..2] == [number, bytes.len() as u64] && answer.is_guarded();
        if same && !wrong_output(&out, &bytes) && input.holds(&data) {
            w.count(number);
        } else {
            w.report(&format!(
                "decrypt: {}, lenIV {len_iv}, room {room}: {words:?}, {}; due {number}, {}",
                hex(&data),
                hex(out.lent()),
                hex(&bytes)
            ));
        }
    }
}

/// A finished charstring of a glyph; none where the Rust refuses it.
fn finished(r: &mut Random, charstring: &[u8], subrs: &[Vec<u8>], len_iv: usize, m: &Matrix) -> Option<Vec<u8>> {
    let run = oracle::watched(charstring, subrs, len_iv, m, &oracle::NO_STORES);
    if run.limit.is_some() || !run.folds_finite {
        return None;
    }
    let glyph = convert_charstring_transformed(charstring, subrs, len_iv, m).ok()?;
    glyph.charstring(r.pick(&[0.0, 500.0, glyph.width]), 0.0).ok()
}

fn finished_random(r: &mut Random) -> Option<Vec<u8>> {
    let bounds = if r.once_in(4) { &LONG } else { &SHORT };
    let g = generate::glyph(r, bounds);
    let m = generate::matrix(r);
    let input = generate::encrypted(r, &g);
    finished(r, &input.charstring, &input.subrs, input.len_iv, &m)
}

/// Bytes, most of them operators and short numbers.
fn noise(r: &mut Random) -> Vec<u8> {
    let n = r.below(24);
    (0..n)
        .map(|_| match r.below(4) {
            0 => r.byte(),
            1 => r.pick(&[1, 3, 4, 5, 8, 12, 14, 14, 14, 18, 19, 21, 22, 23, 28, 35, 255]),
            _ => r.between(130, 150) as u8,
        })
        .collect()
}

/// What a call for a box reads and writes.
struct BoxPlaces {
    program: Fence,
    window: Fence,
    sides: Place,
    answer: Place,
}

/// A program in a window near its box, against the oracle's own machine: the Rust has no box.
fn compare_box(w: &mut Worker, p: &mut BoxPlaces, program: &[u8]) {
    let window = boxes::window_of(&mut w.random, program);
    let (number, b, verdict) = machine::answer(program, &window);
    let bytes: Vec<u8> = window.iter().flat_map(|v| v.to_ne_bytes()).collect();
    let got = unsafe {
        archive::cribstork_box(
            p.program.hold(program),
            program.len(),
            p.window.hold(&bytes).cast(),
            p.sides.lend_words(4).cast(),
            p.answer.lend_words(2).cast(),
        )
    };
    let (words, found) = (words_of(&p.answer), words_of(&p.sides));
    let same = got == number
        && words[..2] == [number, verdict]
        && found == b.map(|v| v as u64)
        && p.sides.is_guarded()
        && p.answer.is_guarded()
        && p.program.holds(program)
        && p.window.holds(&bytes);
    if same {
        w.count(number);
    } else {
        w.report(&format!(
            "box: {}, window {window:?}: {words:?}, {:?}; due {number}, {b:?}, {verdict}",
            hex(program),
            found.map(|v| v as i64)
        ));
    }
}

pub fn glyph_box(w: &mut Worker) {
    let mut places = BoxPlaces {
        program: Fence::new(),
        window: Fence::new(),
        sides: Place::new(),
        answer: Place::new(),
    };
    let share = w.share();
    while w.tally.cases < share && !w.has_enough() {
        let r = &mut w.random;
        let mut program = match r.below(4) {
            0 => noise(r),
            1 => finished_random(r).unwrap_or_default(),
            _ => boxes::program(r),
        };
        if r.once_in(3) {
            program = boxes::damaged(r, &program);
        }
        compare_box(w, &mut places, &program);
    }
    for (at, font) in w.settings.fonts.iter().enumerate() {
        if !w.takes(at as u64) || w.has_enough() {
            continue;
        }
        for (_, charstring) in &font.glyphs {
            for [a, b, c, d, tx, ty] in MATRICES {
                let m = Matrix::new(a, b, c, d, tx, ty);
                let Some(program) = finished(&mut w.random, charstring, &font.subrs, font.len_iv, &m) else {
                    continue;
                };
                compare_box(w, &mut places, &program);
                let bad = boxes::damaged(&mut w.random, &program);
                compare_box(w, &mut places, &bad);
            }
        }
    }
}
