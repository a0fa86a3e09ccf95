//! A case of converting, what the Rust and document 01 make of it, and what the archive does.

use crate::archive;
use crate::charstring::decrypt_charstring;
use crate::cipher::NOT_ENCRYPTED;
use crate::fence::Fence;
use crate::generate::{bank, bodies};
use crate::geometry::Matrix;
use crate::glyphs::refusal;
use crate::lent::Place;
use crate::type1_to_type2::{convert_charstring_transformed, oracle};
use std::fmt::Write;
use std::sync::Arc;

/// A bank, and its bodies where it keeps its layout.
pub struct Bank {
    pub bytes: Vec<u8>,
    pub bodies: Option<Vec<Vec<u8>>>,
}

impl Bank {
    pub fn of_bodies(subrs: Vec<Vec<u8>>) -> Arc<Self> {
        Arc::new(Self {
            bytes: bank(&subrs),
            bodies: Some(subrs),
        })
    }

    pub fn of_bytes(bytes: Vec<u8>) -> Arc<Self> {
        let bodies = bodies(&bytes);
        Arc::new(Self { bytes, bodies })
    }
}

/// Room in what is lent.
#[derive(Clone, Copy, Debug, PartialEq)]
pub struct Rooms {
    pub records: usize,
    pub words: usize,
    pub output: usize,
}

/// Finishing in the same call: the widths, and the room of its output. The rooms' output then is the program's store.
#[derive(Clone, Copy, Debug, PartialEq)]
pub struct Finish {
    pub default: f64,
    pub nominal: f64,
    pub output: usize,
}

#[derive(Clone)]
pub struct Case {
    pub charstring: Vec<u8>,
    pub bank: Arc<Bank>,
    pub len_iv: usize,
    pub matrix: [f64; 6],
    pub rooms: Rooms,
    pub finish: Option<Finish>,
}

/// What an input comes to, whatever the rooms.
pub struct Outcome {
    /// Numbers 1 and 2.
    early: Option<u64>,
    watched: Option<oracle::Watched>,
    glyph: Result<(f64, Vec<u8>), String>,
}

impl Outcome {
    /// What it uses of the rooms, up to its end or its refusal.
    pub fn used(&self) -> Rooms {
        let (records, entries) = self.watched.as_ref().map_or((0, 0), |w| (w.records, w.entries));
        Rooms {
            records,
            words: 14 * entries,
            output: match &self.glyph {
                Ok((_, program)) => program.len(),
                Err(text) => place(text).unwrap_or(0),
            },
        }
    }

    pub fn converts(&self) -> bool {
        self.glyph.is_ok() && self.early.is_none()
    }

    pub fn width(&self) -> f64 {
        self.glyph.as_ref().map_or(0.0, |g| g.0)
    }
}

/// The bytes written before a number that is out of range.
fn place(text: &str) -> Option<usize> {
    text.rsplit_once("out of range at ")?.1.parse().ok()
}

/// What is answered.
#[derive(Clone, Debug)]
pub struct Answer {
    pub number: u64,
    pub width: f64,
    pub count: usize,
    pub bytes: Vec<u8>,
}

fn refused(number: u64) -> Answer {
    Answer {
        number,
        width: 0.0,
        count: 0,
        bytes: Vec::new(),
    }
}

impl Case {
    fn matrix(&self) -> Matrix {
        let [a, b, c, d, tx, ty] = self.matrix;
        Matrix::new(a, b, c, d, tx, ty)
    }

    pub fn outcome(&self) -> Outcome {
        let early = if self.matrix.iter().any(|v| !v.is_finite()) {
            Some(1)
        } else if self.bank.bodies.is_none() {
            Some(2)
        } else {
            None
        };
        let nothing = Outcome {
            early,
            watched: None,
            glyph: Err(String::new()),
        };
        let Some(subrs) = self.bank.bodies.as_ref().filter(|_| early.is_none()) else {
            return nothing;
        };
        let lent = oracle::Lent {
            records: usize::MAX,
            entries: usize::MAX,
        };
        let watched = oracle::watched(&self.charstring, subrs, self.len_iv, &self.matrix(), &lent);
        let glyph = if watched.limit.is_some() || watched.completed && !watched.folds_finite {
            Err(String::new())
        } else {
            convert_charstring_transformed(&self.charstring, subrs, self.len_iv, &self.matrix())
                .map(|g| (g.width, g.program))
        };
        Outcome {
            early,
            watched: Some(watched),
            glyph,
        }
    }

    /// The answer that is due in the case's rooms, in this reading.
    pub fn expected(&self, outcome: &Outcome, strict: bool) -> Answer {
        let a = self.converted(outcome, strict);
        let Some(finish) = self.finish.filter(|_| a.number == 0) else {
            return a;
        };
        match oracle::glyph(a.width, a.bytes).charstring(finish.default, finish.nominal) {
            Err(text) => refused(refusal(&text)),
            Ok(bytes) if bytes.len() > finish.output => refused(18),
            Ok(bytes) => Answer { bytes, ..a },
        }
    }

    fn converted(&self, outcome: &Outcome, strict: bool) -> Answer {
        if let Some(number) = outcome.early {
            return refused(number);
        }
        let (Some(watched), Some(subrs)) = (&outcome.watched, &self.bank.bodies) else {
            panic!("watched, as the bank keeps its layout");
        };
        let lent = oracle::Lent {
            records: self.rooms.records,
            entries: self.rooms.words / 14,
        };
        let (limit, first, operands) = if watched.records <= lent.records && watched.entries <= lent.entries {
            (watched.limit.is_some(), watched.first, watched.operands)
        } else {
            let again = oracle::watched(&self.charstring, subrs, self.len_iv, &self.matrix(), &lent);
            (again.limit.is_some(), again.first, again.operands)
        };
        // The Rust has no strict reading: 22 is where its run, up to its end or its refusal, comes to hold a 25th operand.
        if strict && operands > oracle::STRICT_OPERANDS {
            return refused(22);
        }
        if limit {
            return refused(first);
        }
        if watched.completed && !watched.folds_finite {
            return refused(14);
        }
        match &outcome.glyph {
            // The bytes before a number come before it: 18 before 13.
            Err(text) if place(text).is_some_and(|n| n > self.rooms.output) => refused(18),
            Err(text) => refused(refusal(text)),
            Ok((_, program)) if program.len() > self.rooms.output => refused(18),
            Ok((width, program)) => Answer {
                number: 0,
                width: *width,
                count: watched.bytes_run,
                bytes: program.clone(),
            },
        }
    }
}

/// Inputs and what is lent, used again from case to case.
pub struct Lent {
    charstring: Fence,
    bank: Fence,
    records: Place,
    words: Place,
    program: Place,
    out: Place,
    answer: Place,
    turn: u64,
}

/// Banks up to this size are copied for each case, so that they end at a fence.
const COPIED: usize = 4096;

impl Lent {
    pub fn new() -> Self {
        Self {
            charstring: Fence::new(),
            bank: Fence::new(),
            records: Place::new(),
            words: Place::new(),
            program: Place::new(),
            out: Place::new(),
            answer: Place::new(),
            turn: 0,
        }
    }

    /// Calls the archive; tells what is wrong with its answer, or the number.
    pub fn call(&mut self, case: &Case, expected: &Answer, strict: bool) -> Result<u64, String> {
        self.turn = self.turn.wrapping_mul(6_364_136_223_846_793_005).wrapping_add(1);
        let turn = self.turn.rotate_left(17);
        // Bits without a meaning are any, and every other time none.
        let rest = if turn >> 32 & 1 == 0 { 0 } else { turn << 1 };
        let reading = rest | if strict { archive::CRIBSTORK_STRICT } else { 0 };
        let charstring = self.charstring.hold(&case.charstring);
        let bank = if case.bank.bytes.len() <= COPIED {
            self.bank.hold(&case.bank.bytes)
        } else {
            case.bank.bytes.as_ptr()
        };
        let matrix = case.matrix;
        let records = self.records.lend_records(case.rooms.records);
        let words = self.words.lend_words(case.rooms.words);
        let shift = (turn >> 40) as usize % 8;
        let answer = self.answer.lend_words(4);
        let output = case.finish.map_or(case.rooms.output, |f| f.output);
        let out = self.out.lend_bytes(output, shift);
        let number = unsafe {
            match case.finish {
                None => archive::cribstork_convert(
                    charstring,
                    case.charstring.len(),
                    bank,
                    case.bank.bytes.len(),
                    case.len_iv,
                    reading,
                    matrix.as_ptr().cast(),
                    records,
                    case.rooms.records,
                    words,
                    case.rooms.words,
                    out,
                    output,
                    answer.cast(),
                ),
                Some(f) => {
                    let program = self.program.lend_bytes(case.rooms.output, 7 - shift);
                    archive::cribstork_convert_finished(
                        charstring,
                        case.charstring.len(),
                        bank,
                        case.bank.bytes.len(),
                        case.len_iv,
                        reading,
                        matrix.as_ptr().cast(),
                        records,
                        case.rooms.records,
                        words,
                        case.rooms.words,
                        program,
                        case.rooms.output,
                        f.default,
                        f.nominal,
                        out,
                        output,
                        answer.cast(),
                    )
                }
            }
        };
        let answer = words_of(&self.answer);
        if number != expected.number {
            return Err(format!("the number is {number}"));
        }
        let due = if number == 0 {
            [
                0,
                expected.bytes.len() as u64,
                expected.width.to_bits(),
                expected.count as u64,
            ]
        } else {
            [number, 0, 0, 0]
        };
        if answer != due {
            return Err(format!("the answer is {answer:?}, and {due:?} is due"));
        }
        let written = if number == 0 { expected.bytes.len() } else { 0 };
        let got = self.out.lent();
        if got[..written] != expected.bytes[..written] {
            return Err(format!("the output is {}", hex(&got[..written])));
        }
        if got[written..].iter().any(|b| *b != 0) {
            return Err("the output's rest is not zeros".into());
        }
        if !self.records.has_zero_records() || !self.words.is_zeros() {
            return Err("a store is not zeros".into());
        }
        if case.finish.is_some() && !(self.program.is_zeros() && self.program.is_guarded()) {
            return Err("the program's store is not zeros, or a guard is written".into());
        }
        if !self.charstring.holds(&case.charstring)
            || case.bank.bytes.len() <= COPIED && !self.bank.holds(&case.bank.bytes)
            || matrix.map(f64::to_bits) != case.matrix.map(f64::to_bits)
        {
            return Err("an input is written".into());
        }
        if ![&self.records, &self.words, &self.out, &self.answer]
            .iter()
            .all(|p| p.is_guarded())
        {
            return Err("a guard is written".into());
        }
        Ok(number)
    }

    /// A case from its start; tells what differs.
    pub fn differs(&mut self, case: &Case, strict: bool) -> Option<String> {
        let expected = case.expected(&case.outcome(), strict);
        self.call(case, &expected, strict).err()
    }
}

pub fn words_of(place: &Place) -> [u64; 4] {
    let mut words = [0; 4];
    for (w, b) in words.iter_mut().zip(place.lent().chunks_exact(8)) {
        *w = u64::from_ne_bytes(b.try_into().unwrap());
    }
    words
}

pub fn hex(bytes: &[u8]) -> String {
    let mut out = String::new();
    for b in bytes {
        let _ = write!(out, "{b:02X} ");
    }
    out.trim_end().to_string()
}

impl Case {
    pub fn describe(&self, strict: bool) -> String {
        let expected = self.expected(&self.outcome(), strict);
        let len_iv = if self.len_iv == NOT_ENCRYPTED {
            "not encrypted".to_string()
        } else {
            format!("lenIV {}", self.len_iv)
        };
        format!(
            "  charstring {}\n  bank {}\n  {len_iv}, strict {strict}, matrix {:?}\n  {:?}, finish {:?}\n  due: number {}, width {:?}, bytes run {}, bytes {}",
            hex(&self.charstring),
            hex(&self.bank.bytes),
            self.matrix,
            self.rooms,
            self.finish,
            expected.number,
            expected.width,
            expected.count,
            hex(&expected.bytes),
        )
    }

    fn with_bodies(&self, subrs: Vec<Vec<u8>>) -> Self {
        Self {
            bank: Bank::of_bodies(subrs),
            ..self.clone()
        }
    }

    /// Cases that are a little simpler.
    fn simpler(&self) -> Vec<Self> {
        const IDENTITY: [f64; 6] = [1.0, 0.0, 0.0, 1.0, 0.0, 0.0];
        const AMPLE: Rooms = Rooms {
            records: 1024,
            words: 14 * 1024,
            output: 8192,
        };
        let mut all = Vec::new();
        if self.len_iv != NOT_ENCRYPTED
            && let Some(subrs) = &self.bank.bodies
        {
            let mut plain = self.with_bodies(subrs.iter().map(|b| decrypt_charstring(b, self.len_iv)).collect());
            plain.charstring = decrypt_charstring(&self.charstring, self.len_iv);
            plain.len_iv = NOT_ENCRYPTED;
            all.push(plain);
        }
        for piece in shorter(&self.charstring) {
            all.push(Self {
                charstring: piece,
                ..self.clone()
            });
        }
        if let Some(subrs) = &self.bank.bodies {
            if !subrs.is_empty() {
                all.push(self.with_bodies(Vec::new()));
                all.push(self.with_bodies(subrs[..subrs.len() - 1].to_vec()));
            }
            for (i, body) in subrs.iter().enumerate() {
                for piece in shorter(body) {
                    let mut fewer = subrs.clone();
                    fewer[i] = piece;
                    all.push(self.with_bodies(fewer));
                }
            }
        }
        if self.finish.is_some() {
            all.push(Self {
                finish: None,
                ..self.clone()
            });
        }
        for i in 0..6 {
            if self.matrix[i].to_bits() != IDENTITY[i].to_bits() {
                let mut matrix = self.matrix;
                matrix[i] = IDENTITY[i];
                all.push(Self { matrix, ..self.clone() });
            }
        }
        for rooms in [
            Rooms {
                records: AMPLE.records,
                ..self.rooms
            },
            Rooms {
                words: AMPLE.words,
                ..self.rooms
            },
            Rooms {
                output: AMPLE.output,
                ..self.rooms
            },
        ] {
            if rooms != self.rooms {
                all.push(Self { rooms, ..self.clone() });
            }
        }
        all
    }

    /// The smallest case found that still differs.
    pub fn smallest(&self, lent: &mut Lent, strict: bool) -> Self {
        let mut best = self.clone();
        let mut tries = 0;
        'again: loop {
            for simpler in best.simpler() {
                tries += 1;
                if tries > 200_000 {
                    return best;
                }
                if lent.differs(&simpler, strict).is_some() {
                    best = simpler;
                    continue 'again;
                }
            }
            return best;
        }
    }
}

/// A byte string without a part of it, the long parts first, or with a number made 0 or 1.
fn shorter(bytes: &[u8]) -> Vec<Vec<u8>> {
    let mut all = Vec::new();
    let mut size = bytes.len();
    while size > 0 {
        for at in (0..bytes.len()).step_by(size.div_ceil(2)) {
            let mut piece = bytes.to_vec();
            piece.drain(at..bytes.len().min(at + size));
            all.push(piece);
        }
        size /= 2;
    }
    for (i, &b) in bytes.iter().enumerate() {
        for simple in [139, 140] {
            if b >= 32 && b != 139 && b != simple {
                let mut piece = bytes.to_vec();
                piece[i] = simple;
                all.push(piece);
            }
        }
    }
    all
}
