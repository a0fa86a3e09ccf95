//! Cribstork from Rust: a safe wrapper of the six functions of include/cribstork.h.
//!
//! It needs no `std` and no allocator: the caller lends the stores and the output.
//! Stores may hold anything before a call and are all zeros after it. An output holds the result's bytes and then
//! zeros; after a refusal zeros only.

#![no_std]

mod ffi;

#[cfg(test)]
mod tests;

use core::fmt;

pub use ffi::Stem;

/// This lenIV means that nothing is encrypted.
pub const NOT_ENCRYPTED: usize = usize::MAX;

/// Words of the command store to an entry. A remainder is unused.
pub const ENTRY_WORDS: usize = 14;

/// The matrix that leaves a glyph as it is.
pub const IDENTITY: [f64; 6] = [1.0, 0.0, 0.0, 1.0, 0.0, 0.0];

/// A bank with no subroutines.
pub const NO_SUBRS: [u8; 6] = [0; 6];

/// Why a call was refused, with the number that the board logs. Later versions may have more.
#[derive(Clone, Copy, Debug, PartialEq, Eq, Hash)]
#[non_exhaustive]
#[repr(u64)]
pub enum Refusal {
    MatrixNotFinite = 1,
    BankLayout = 2,
    BytesRun = 3,
    Depth = 4,
    Cut = 5,
    UnknownOperator = 6,
    OperandsMissing = 7,
    NoSuchSubroutine = 8,
    Flex = 9,
    DivByZero = 10,
    NothingToPop = 11,
    Seac = 12,
    NumberRange = 13,
    NotFinite = 14,
    StackFull = 15,
    StemsFull = 16,
    CommandsFull = 17,
    OutputShort = 18,
    WidthNotFinite = 19,
    ScratchShort = 20,
    NoBox = 21,
    StrictStackFull = 22,
}

use Refusal::*;

const REFUSALS: [(Refusal, &str); 22] = [
    (MatrixNotFinite, "a matrix entry is not finite"),
    (BankLayout, "the bank breaks its layout"),
    (BytesRun, "bytes run over 1,048,576"),
    (Depth, "subroutines 11 deep"),
    (Cut, "a number or an escape is cut"),
    (UnknownOperator, "an unknown operator"),
    (OperandsMissing, "operands missing"),
    (NoSuchSubroutine, "no such subroutine"),
    (Flex, "a flex not started, or not of seven points"),
    (DivByZero, "div by 0"),
    (NothingToPop, "pop, and nothing left for it"),
    (Seac, "seac"),
    (NumberRange, "a number not from -32768 to below 32768 once rounded"),
    (NotFinite, "a quotient, point, stem edge or folded value is not finite"),
    (StackFull, "the 257th operand, or a PostScript stack over 256"),
    (StemsFull, "the 257th stem in force or group, or the stem store is full"),
    (CommandsFull, "the command store is full"),
    (OutputShort, "the output is short"),
    (WidthNotFinite, "a listed width is not finite"),
    (ScratchShort, "the width scratch is shorter than the list"),
    (
        NoBox,
        "bytes on which the Type 2 machine faults, or a glyph that draws no point",
    ),
    (StrictStackFull, "the 25th operand in the strict reading"),
];

impl Refusal {
    /// The number that the board logs.
    pub fn number(self) -> u64 {
        self as u64
    }

    /// The refusal with this number; none for 0 and for numbers beyond 22.
    pub fn from_number(number: u64) -> Option<Self> {
        let at = usize::try_from(number).ok()?.checked_sub(1)?;
        REFUSALS.get(at).map(|&(refusal, _)| refusal)
    }
}

impl fmt::Display for Refusal {
    fn fmt(&self, f: &mut fmt::Formatter<'_>) -> fmt::Result {
        write!(f, "{}: {}", self.number(), REFUSALS[*self as usize - 1].1)
    }
}

impl core::error::Error for Refusal {}

/// A number as a result. The archive gives no number beyond 22.
fn accepted(number: u64) -> Result<(), Refusal> {
    match number {
        0 => Ok(()),
        _ => Err(Refusal::from_number(number).expect("a number of the header")),
    }
}

/// The front part of an output.
fn front(out: &[u8], len: u64) -> &[u8] {
    &out[..usize::try_from(len).expect("a length within the output")]
}

/// How charstrings are read. By default they are not encrypted, and the reading is not strict.
#[derive(Clone, Copy, Debug, PartialEq, Eq)]
pub struct Settings {
    /// Plain bytes dropped at the start of every charstring, or [`NOT_ENCRYPTED`].
    pub len_iv: usize,
    /// Type 1's own stack: 24 operands fit, and a 25th is refused with 22. A glyph that is not refused so has the answer
    /// and the bytes that it has without.
    pub strict: bool,
}

impl Default for Settings {
    fn default() -> Self {
        Self {
            len_iv: NOT_ENCRYPTED,
            strict: false,
        }
    }
}

impl Settings {
    /// The word of the header's `reading`.
    fn reading(self) -> u64 {
        if self.strict { ffi::CRIBSTORK_STRICT } else { 0 }
    }
}

/// What is converted: a charstring and the font's bank, both as the font has them, how they are read, and the matrix to
/// fold in.
#[derive(Clone, Copy, Debug)]
pub struct Input<'a> {
    pub charstring: &'a [u8],
    /// See [`bank`].
    pub bank: &'a [u8],
    pub settings: Settings,
    pub matrix: [f64; 6],
}

/// The stores that converting is lent.
#[derive(Debug)]
pub struct Stores<'a> {
    /// One record for each stem of each group.
    pub stems: &'a mut [Stem],
    /// [`ENTRY_WORDS`] for each move, line, curve, flex and start of a group.
    pub commands: &'a mut [u64],
}

/// A font's default and nominal width.
#[derive(Clone, Copy, Debug, PartialEq)]
pub struct Widths {
    pub default: f64,
    pub nominal: f64,
}

/// A converted glyph.
#[derive(Clone, Copy, Debug, PartialEq)]
pub struct Glyph<'a> {
    pub width: f64,
    /// Bytes run, each subroutine counted every time that it is called.
    pub bytes_run: u64,
    /// The program, or the finished charstring: the front part of the output.
    pub program: &'a [u8],
}

/// A box or a window, in units of 1/65536.
#[derive(Clone, Copy, Debug, PartialEq, Eq)]
pub struct Bounds {
    /// The least x.
    pub left: i64,
    /// The least y.
    pub bottom: i64,
    /// The greatest x.
    pub right: i64,
    /// The greatest y.
    pub top: i64,
}

/// How a box lies to a window.
#[derive(Clone, Copy, Debug, PartialEq, Eq)]
pub enum Verdict {
    /// All of the box lies in the window, touching edges included.
    Within,
    /// Neither of the others.
    Crossing,
    /// They share no point.
    Outside,
}

/// How many bytes the bank of these bodies has; none where there are over 65,535 or their bytes are over 4,294,967,295.
pub fn bank_len<B: AsRef<[u8]>>(bodies: &[B]) -> Option<usize> {
    u16::try_from(bodies.len()).ok()?;
    let mut end: u32 = 0;
    for body in bodies {
        end = end.checked_add(u32::try_from(body.as_ref().len()).ok()?)?;
    }
    (2 + 4 * (bodies.len() + 1)).checked_add(usize::try_from(end).ok()?)
}

/// The subroutine bank of these bodies, written to the front of `out`; none where [`bank_len`] has none, or `out` is
/// shorter than that.
pub fn bank<'a, B: AsRef<[u8]>>(bodies: &[B], out: &'a mut [u8]) -> Option<&'a [u8]> {
    let all = out.get_mut(..bank_len(bodies)?)?;
    let (count, rest) = all.split_at_mut(2);
    let (offsets, places) = rest.split_at_mut(4 * (bodies.len() + 1));
    count.copy_from_slice(&u16::try_from(bodies.len()).ok()?.to_be_bytes());
    offsets[..4].fill(0);
    let mut end = 0;
    for (offset, body) in offsets[4..].chunks_exact_mut(4).zip(bodies) {
        let body = body.as_ref();
        places[end..end + body.len()].copy_from_slice(body);
        end += body.len();
        offset.copy_from_slice(&u32::try_from(end).ok()?.to_be_bytes());
    }
    Some(all)
}

/// Converts a Type 1 charstring; the program is without its width.
pub fn convert<'a>(input: &Input, stores: Stores, out: &'a mut [u8]) -> Result<Glyph<'a>, Refusal> {
    let mut answer = [0; 4];
    // SAFETY: every pointer comes from a slice or an array of the length that goes with it, and no two that are
    // written overlap, as they are borrowed as mutable.
    let number = unsafe {
        ffi::cribstork_convert(
            input.charstring.as_ptr(),
            input.charstring.len(),
            input.bank.as_ptr(),
            input.bank.len(),
            input.settings.len_iv,
            input.settings.reading(),
            &input.matrix,
            stores.stems.as_mut_ptr(),
            stores.stems.len(),
            stores.commands.as_mut_ptr(),
            stores.commands.len(),
            out.as_mut_ptr(),
            out.len(),
            &mut answer,
        )
    };
    accepted(number)?;
    Ok(Glyph {
        width: f64::from_bits(answer[2]),
        bytes_run: answer[3],
        program: front(out, answer[1]),
    })
}

/// The charstring of a converted program: its width first, unless it is the default.
pub fn finish<'a>(width: f64, program: &[u8], widths: Widths, out: &'a mut [u8]) -> Result<&'a [u8], Refusal> {
    let mut answer = [0; 2];
    // SAFETY: as in `convert`.
    let number = unsafe {
        ffi::cribstork_finish(
            width,
            program.as_ptr(),
            program.len(),
            widths.default,
            widths.nominal,
            out.as_mut_ptr(),
            out.len(),
            &mut answer,
        )
    };
    accepted(number)?;
    Ok(front(out, answer[1]))
}

/// Converts and finishes. `program` is a store for the program.
pub fn convert_finished<'a>(
    input: &Input,
    stores: Stores,
    program: &mut [u8],
    widths: Widths,
    out: &'a mut [u8],
) -> Result<Glyph<'a>, Refusal> {
    let mut answer = [0; 4];
    // SAFETY: as in `convert`.
    let number = unsafe {
        ffi::cribstork_convert_finished(
            input.charstring.as_ptr(),
            input.charstring.len(),
            input.bank.as_ptr(),
            input.bank.len(),
            input.settings.len_iv,
            input.settings.reading(),
            &input.matrix,
            stores.stems.as_mut_ptr(),
            stores.stems.len(),
            stores.commands.as_mut_ptr(),
            stores.commands.len(),
            program.as_mut_ptr(),
            program.len(),
            widths.default,
            widths.nominal,
            out.as_mut_ptr(),
            out.len(),
            &mut answer,
        )
    };
    accepted(number)?;
    Ok(Glyph {
        width: f64::from_bits(answer[2]),
        bytes_run: answer[3],
        program: front(out, answer[1]),
    })
}

/// The box of a finished charstring, which holds all points that it draws, moves and control points included, and how it
/// lies to a window. What stands after its endchar is not read. A window whose least is above its greatest has no point.
/// [`Refusal::NoBox`] for bytes on which the Type 2 machine faults, and for a glyph that draws no point.
pub fn glyph_box(program: &[u8], window: Bounds) -> Result<(Bounds, Verdict), Refusal> {
    let window = [window.left, window.bottom, window.right, window.top];
    let mut sides = [0; 4];
    let mut answer = [0; 2];
    // SAFETY: as in `convert`.
    let number = unsafe { ffi::cribstork_box(program.as_ptr(), program.len(), &window, &mut sides, &mut answer) };
    accepted(number)?;
    let [left, bottom, right, top] = sides;
    let verdict = match answer[1] {
        1 => Verdict::Within,
        2 => Verdict::Crossing,
        _ => Verdict::Outside,
    };
    Ok((
        Bounds {
            left,
            bottom,
            right,
            top,
        },
        verdict,
    ))
}

/// The default and the nominal width of a font whose glyphs have these widths. The scratch is at least as long as the
/// list.
pub fn choose_widths(widths: &[f64], scratch: &mut [f64]) -> Result<Widths, Refusal> {
    let mut pair = [0.0; 2];
    // SAFETY: as in `convert`.
    let number = unsafe {
        ffi::cribstork_choose_widths(
            widths.as_ptr(),
            widths.len(),
            scratch.as_mut_ptr(),
            scratch.len(),
            &mut pair,
        )
    };
    accepted(number)?;
    Ok(Widths {
        default: pair[0],
        nominal: pair[1],
    })
}

/// The plain bytes of a charstring, the first `len_iv` dropped.
pub fn decrypt<'a>(data: &[u8], len_iv: usize, out: &'a mut [u8]) -> Result<&'a [u8], Refusal> {
    let mut answer = [0; 2];
    // SAFETY: as in `convert`.
    let number = unsafe {
        ffi::cribstork_decrypt(
            data.as_ptr(),
            data.len(),
            len_iv,
            out.as_mut_ptr(),
            out.len(),
            &mut answer,
        )
    };
    accepted(number)?;
    Ok(front(out, answer[1]))
}
