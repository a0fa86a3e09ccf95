//! Type 1 fonts from files: PFB segments or plain text, eexec, Subrs and CharStrings. The charstrings stay encrypted.

use std::collections::HashSet;
use std::path::{Path, PathBuf};

pub struct Font {
    pub name: String,
    pub len_iv: usize,
    pub subrs: Vec<Vec<u8>>,
    /// Names and charstrings.
    pub glyphs: Vec<(String, Vec<u8>)>,
}

/// The fonts at a path: a file, or every .t1, .pfb and .pfa file of a folder and of those within it, in order.
pub fn find(path: &Path) -> Vec<PathBuf> {
    let mut all = Vec::new();
    if path.is_file() {
        all.push(path.to_path_buf());
    } else if let Ok(entries) = std::fs::read_dir(path) {
        for entry in entries.flatten() {
            let inner = entry.path();
            let is_font = inner.extension().is_some_and(|e| e == "t1" || e == "pfb" || e == "pfa");
            if inner.is_dir() || is_font {
                all.extend(find(&inner));
            }
        }
    }
    all.sort();
    all
}

/// Every font of these paths that can be read, a file with several names once. Those that cannot be read are named on
/// the error output.
pub fn read_all(paths: &[String]) -> Vec<Font> {
    let mut fonts = Vec::new();
    let mut seen = HashSet::new();
    for file in paths.iter().flat_map(|p| find(Path::new(p))) {
        let own = std::fs::canonicalize(&file).unwrap_or(file.clone());
        if !seen.insert(own) {
            continue;
        }
        match read(&file) {
            Ok(font) => fonts.push(font),
            Err(why) => eprintln!("{}: {why}", file.display()),
        }
    }
    fonts
}

pub fn read(path: &Path) -> Result<Font, String> {
    let file = std::fs::read(path).map_err(|e| e.to_string())?;
    let joined = if file.first() == Some(&0x80) {
        segments(&file)?
    } else {
        file
    };
    let start = position(&joined, b"eexec").ok_or("no eexec")? + 5;
    let private = private_part(&joined[start..]);
    let name = path
        .file_name()
        .map_or(String::new(), |n| n.to_string_lossy().into_owned());
    parse(name, &private)
}

fn position(data: &[u8], word: &[u8]) -> Option<usize> {
    data.windows(word.len()).position(|w| w == word)
}

/// The data of a PFB's segments: 80, kind (1 text, 2 binary, 3 the end), length in four bytes, low first.
fn segments(file: &[u8]) -> Result<Vec<u8>, String> {
    let mut out = Vec::new();
    let mut at = 0;
    while let Some(&[0x80, kind @ (1 | 2), a, b, c, d]) = file.get(at..at + 6) {
        let _ = kind;
        let length = u32::from_le_bytes([a, b, c, d]) as usize;
        out.extend(file.get(at + 6..at + 6 + length).ok_or("a segment is cut")?);
        at += 6 + length;
    }
    Ok(out)
}

/// What eexec encrypts, as binary or as hexadecimal digits, decrypted and without its first four bytes.
fn private_part(data: &[u8]) -> Vec<u8> {
    let blank = data.iter().take_while(|b| b.is_ascii_whitespace()).count().min(2);
    let data = &data[blank..];
    let hex = data.len() >= 4 && data[..4].iter().all(u8::is_ascii_hexdigit);
    let cipher: Vec<u8> = if hex {
        let digits: Vec<u8> = data
            .iter()
            .filter_map(|&b| (b as char).to_digit(16).map(|d| d as u8))
            .collect();
        digits.chunks_exact(2).map(|pair| pair[0] * 16 + pair[1]).collect()
    } else {
        data.to_vec()
    };
    let mut key: u16 = 55665;
    let plain: Vec<u8> = cipher
        .iter()
        .map(|&c| {
            let p = c ^ (key >> 8) as u8;
            key = u16::from(c).wrapping_add(key).wrapping_mul(52845).wrapping_add(22719);
            p
        })
        .collect();
    plain.get(4..).unwrap_or(&[]).to_vec()
}

struct Reader<'a> {
    data: &'a [u8],
    at: usize,
}

impl<'a> Reader<'a> {
    fn token(&mut self) -> Option<&'a [u8]> {
        while self.data.get(self.at)?.is_ascii_whitespace() {
            self.at += 1;
        }
        let start = self.at;
        self.at += 1;
        while let Some(b) = self.data.get(self.at)
            && !b.is_ascii_whitespace()
            && !b"/[]{}".contains(b)
        {
            self.at += 1;
        }
        Some(&self.data[start..self.at])
    }

    fn number(&mut self) -> Option<usize> {
        std::str::from_utf8(self.token()?).ok()?.parse().ok()
    }

    /// A length, the word RD or -|, one blank, then as many bytes.
    fn binary(&mut self) -> Option<Vec<u8>> {
        let length = self.number()?;
        self.token()?;
        let start = self.at + 1;
        let bytes = self.data.get(start..start + length)?.to_vec();
        self.at = start + length;
        Some(bytes)
    }
}

fn parse(name: String, private: &[u8]) -> Result<Font, String> {
    let after = |word: &[u8]| position(private, word).map(|p| p + word.len());
    let reader = |at: usize| Reader { data: private, at };
    let len_iv = match after(b"/lenIV") {
        None => 4,
        Some(at) => match reader(at).token() {
            Some(b"-1") => usize::MAX,
            _ => reader(at).number().ok_or("lenIV is no number")?,
        },
    };
    let mut subrs: Vec<Vec<u8>> = Vec::new();
    if let Some(at) = after(b"/Subrs") {
        let mut r = reader(at);
        let count = r.number().ok_or("Subrs has no count")?;
        subrs.resize(count, Vec::new());
        r.token();
        // dup n length RD bytes NP; NP may be two words.
        let mut others = 0;
        while others < 4 {
            if r.token().ok_or("Subrs is cut")? != b"dup" {
                others += 1;
                continue;
            }
            others = 0;
            let n = r.number().ok_or("Subrs: no number")?;
            let body = r.binary().ok_or("Subrs: a body is cut")?;
            *subrs.get_mut(n).ok_or("Subrs: a number beyond the count")? = body;
        }
    }
    let mut r = reader(after(b"/CharStrings").ok_or("no CharStrings")?);
    let mut glyphs = Vec::new();
    loop {
        match r.token().ok_or("CharStrings is cut")? {
            b"end" => break,
            [b'/', name @ ..] => {
                let name = String::from_utf8_lossy(name).into_owned();
                glyphs.push((name, r.binary().ok_or("CharStrings: a charstring is cut")?));
            }
            _ => {}
        }
    }
    Ok(Font {
        name,
        len_iv,
        subrs,
        glyphs,
    })
}
