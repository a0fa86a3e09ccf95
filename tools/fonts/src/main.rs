//! Converts the glyphs of fonts with stet's Rust. `compare.py` writes the fonts to standard input and reads the answers.
//!
//! A string is its length (32 bits, big-endian), then its bytes; a count is 32 bits. A font is its name, lenIV, the subroutines
//! after their count, and after their count the glyphs, each a name and a charstring. The arguments are a matrix, or none.
//! A font's answer is a line with its name and widths, then a line for each glyph. The error output has the nanoseconds that
//! converting, choosing the widths and finishing took.

#[allow(dead_code)]
mod charstring;
#[allow(dead_code)]
mod encoding;
#[allow(dead_code)]
mod geometry;
#[allow(dead_code)]
mod type1_to_type2;

use geometry::Matrix;
use std::io::{Read, Write};
use std::time::{Duration, Instant};
use type1_to_type2::{Type2Glyph, choose_widths, convert_charstring_transformed};

struct Input {
    bytes: Vec<u8>,
    at: usize,
}

impl Input {
    fn count(&mut self) -> usize {
        let n = u32::from_be_bytes(self.bytes[self.at..self.at + 4].try_into().unwrap());
        self.at += 4;
        n as usize
    }

    fn string(&mut self) -> Vec<u8> {
        let n = self.count();
        self.at += n;
        self.bytes[self.at - n..self.at].to_vec()
    }

    fn text(&mut self) -> String {
        self.string().iter().map(|&b| b as char).collect()
    }
}

fn finished(glyph: &Result<Type2Glyph, String>, default: f64, nominal: f64) -> Result<String, String> {
    let glyph = glyph.as_ref().map_err(String::clone)?;
    let bytes = glyph.charstring(default, nominal)?;
    let hex: String = bytes.iter().map(|b| format!("{b:02x}")).collect();
    Ok(format!("{} {hex}", glyph.width))
}

fn main() {
    let m: Vec<f64> = std::env::args().skip(1).map(|word| word.parse().unwrap()).collect();
    let matrix = if m.len() == 6 {
        Matrix { a: m[0], b: m[1], c: m[2], d: m[3], tx: m[4], ty: m[5] }
    } else {
        Matrix::identity()
    };
    let mut input = Input { bytes: Vec::new(), at: 0 };
    std::io::stdin().read_to_end(&mut input.bytes).unwrap();
    let mut out = std::io::BufWriter::new(std::io::stdout());
    let mut took = Duration::ZERO;
    while input.at < input.bytes.len() {
        let name = input.text();
        let len_iv = input.count();
        let subrs: Vec<Vec<u8>> = (0..input.count()).map(|_| input.string()).collect();
        let codes: Vec<_> = (0..input.count()).map(|_| (input.text(), input.string())).collect();
        let began = Instant::now();
        let glyphs: Vec<_> = codes
            .iter()
            .map(|(name, code)| (name, convert_charstring_transformed(code, &subrs, len_iv, &matrix)))
            .collect();
        let widths: Vec<f64> = glyphs.iter().filter_map(|(_, g)| g.as_ref().ok().map(|g| g.width)).collect();
        let (default, nominal) = choose_widths(&widths);
        for (_, glyph) in &glyphs {
            std::hint::black_box(glyph.as_ref().map(|g| g.charstring(default, nominal)).ok());
        }
        took += began.elapsed();
        writeln!(out, "font {name} {default} {nominal}").unwrap();
        for (name, glyph) in &glyphs {
            match finished(glyph, default, nominal) {
                Ok(answer) => writeln!(out, "{name} {answer}").unwrap(),
                Err(why) => writeln!(out, "{name} refused {why}").unwrap(),
            }
        }
    }
    eprintln!("{}", took.as_nanos());
}
