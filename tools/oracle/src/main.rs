//! Records test vectors from stet's Rust. VECTORS.md has the layout of each kind.
//!
//!     oracle vectors DIR           writes the files that the program `replay` reads
//!     oracle vectors DIR NAME..    writes the files NAME.vec
//!     oracle vectors DIR all       writes every file

#[allow(dead_code)]
mod charstring;
#[allow(dead_code)]
mod encoding;
#[allow(dead_code)]
mod geometry;
#[allow(dead_code)]
mod type1_to_type2;

mod boxes;
mod cipher;
mod doubles;
mod generate;
mod glyphs;
mod machine;
mod numbers;
mod random;
mod strict;
mod vector;

use random::Random;
use vector::Vectors;

/// A file of vectors.
struct Kind {
    name: &'static str,
    number: u8,
    /// `replay` reads it.
    replayed: bool,
    record: fn(&mut Random, &mut Vectors),
}

const fn kind(
    name: &'static str,
    number: u8,
    replayed: bool,
    record: fn(&mut Random, &mut Vectors),
) -> Kind {
    Kind {
        name,
        number,
        replayed,
        record,
    }
}

const KINDS: [Kind; 21] = [
    kind("round", 1, true, doubles::round),
    kind("floor", 2, true, doubles::floor),
    kind("abs", 3, true, doubles::abs),
    kind("is_finite", 4, true, doubles::is_finite),
    kind("to_usize", 5, true, doubles::to_usize),
    kind("to_i64", 6, true, doubles::to_i64),
    kind("round10", 7, true, doubles::round10),
    kind("transform_point", 8, true, doubles::transform_point),
    kind("transform_delta", 9, true, doubles::transform_delta),
    kind("decrypt_charstring", 10, true, cipher::decrypt_charstring),
    kind("quantize", 11, true, numbers::quantize),
    kind("push_number", 12, true, numbers::push_number),
    kind("choose_widths", 13, true, numbers::choose_widths),
    kind("run", 14, true, glyphs::run),
    kind("convert", glyphs::CONVERT, true, glyphs::convert),
    kind("finish", 16, true, glyphs::finish),
    kind("closepaths", 17, true, glyphs::closepaths),
    kind("adobe_numbers", 18, true, numbers::adobe_numbers),
    kind("glyph_box", 19, true, boxes::stated),
    kind("box_of_run", 20, true, boxes::of_runs),
    kind("strict", 21, true, glyphs::strict),
];

fn main() {
    let words: Vec<String> = std::env::args().collect();
    if words.len() < 3 || words[1] != "vectors" {
        eprintln!("usage: oracle vectors DIR [NAME.. | all]");
        std::process::exit(2);
    }
    let names = &words[3..];
    let every = names.iter().any(|n| n == "all");
    for name in names {
        if name != "all" && !KINDS.iter().any(|k| k.name == name) {
            eprintln!("no kind is named {name}");
            std::process::exit(2);
        }
    }
    for k in &KINDS {
        let wanted = if names.is_empty() {
            k.replayed
        } else {
            every || names.iter().any(|n| n == k.name)
        };
        if !wanted {
            continue;
        }
        let mut random = Random::of_kind(k.number);
        let mut vectors = Vectors::new(k.number);
        (k.record)(&mut random, &mut vectors);
        let path = std::path::Path::new(&words[2]).join(format!("{}.vec", k.name));
        std::fs::write(&path, vectors.bytes()).expect("the vector file is written");
        println!(
            "{}: {} vectors, {} bytes, longest {}",
            k.name,
            vectors.count(),
            vectors.bytes().len(),
            vectors.longest()
        );
    }
}
