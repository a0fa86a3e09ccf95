extern crate std;

use super::*;
use std::string::ToString;
use std::vec;
use std::vec::Vec;

/// Stores that are not zeros before a call.
struct Lent {
    stems: Vec<Stem>,
    commands: Vec<u64>,
    program: Vec<u8>,
    out: Vec<u8>,
}

const USED: Stem = Stem {
    horizontal: true,
    pos: 1.5,
    width: -20.0,
};

impl Lent {
    fn new(stems: usize, entries: usize, out: usize) -> Self {
        Self {
            stems: vec![USED; stems],
            commands: vec![0x5A5A; entries * ENTRY_WORDS],
            program: vec![0xA5; out],
            out: vec![0xA5; out],
        }
    }

    fn usual() -> Self {
        Self::new(256, 256, 4096)
    }

    fn convert(&mut self, input: &Input) -> Result<Glyph<'_>, Refusal> {
        let stores = Stores {
            stems: &mut self.stems,
            commands: &mut self.commands,
        };
        convert(input, stores, &mut self.out)
    }

    fn stores_are_zeros(&self) -> bool {
        self.stems.iter().all(|s| *s == Stem::default()) && self.commands.iter().all(|w| *w == 0)
    }
}

const WORKED: [u8; 12] = [0x8B, 0xF8, 0x88, 0x0D, 0x95, 0x9F, 0x15, 0x90, 0x8B, 0x05, 0x09, 0x0E];
const PROGRAM: [u8; 7] = [0x95, 0x9F, 0x15, 0x90, 0x8B, 0x05, 0x0E];

fn plain<'a>(charstring: &'a [u8], bank: &'a [u8]) -> Input<'a> {
    Input {
        charstring,
        bank,
        settings: Settings::default(),
        matrix: IDENTITY,
    }
}

fn bank_of<B: AsRef<[u8]>>(bodies: &[B]) -> Vec<u8> {
    let mut out = vec![0xA5; bank_len(bodies).unwrap()];
    bank(bodies, &mut out).unwrap();
    out
}

/// The number that a charstring is refused with; the output and the stores are then zeros.
fn refused(input: &Input) -> u64 {
    let mut lent = Lent::usual();
    let number = lent.convert(input).expect_err("a refusal").number();
    assert!(lent.stores_are_zeros());
    assert!(lent.out.iter().all(|b| *b == 0));
    number
}

#[test]
fn worked_glyph() {
    let mut lent = Lent::usual();
    let glyph = lent.convert(&plain(&WORKED, &NO_SUBRS)).unwrap();
    assert_eq!(glyph.program, PROGRAM);
    assert_eq!(glyph.width, 500.0);
    assert_eq!(glyph.bytes_run, 12);
    assert!(lent.stores_are_zeros());
    assert!(lent.out[7..].iter().all(|b| *b == 0));
}

#[test]
fn empty_charstring() {
    let mut lent = Lent::new(0, 0, 1);
    let glyph = lent.convert(&plain(&[], &NO_SUBRS)).unwrap();
    assert_eq!(glyph.program, [0x0E]);
    let mut none = Lent::new(0, 0, 0);
    assert_eq!(none.convert(&plain(&[], &NO_SUBRS)), Err(Refusal::OutputShort));
}

#[test]
fn thirds_do_not_drift() {
    let mut lent = Lent::usual();
    let code = [0x8C, 0x8E, 0x0C, 0x0C, 0x16].repeat(3);
    let glyph = lent.convert(&plain(&code, &NO_SUBRS)).unwrap();
    let expected = [
        0xFF, 0, 0, 0x55, 0x55, 0x16, 0xFF, 0, 0, 0x55, 0x56, 0x16, 0xFF, 0, 0, 0x55, 0x55, 0x16, 0x0E,
    ];
    assert_eq!(glyph.program, expected);
}

#[test]
fn subroutine_from_a_bank() {
    let bank = bank_of(&[&[0x95, 0x9F, 0x15, 0x90, 0x8B, 0x05, 0x0B][..], &[]]);
    let mut lent = Lent::usual();
    let glyph = lent.convert(&plain(&[0x8B, 0x0A, 0x8C, 0x0A, 0x0E], &bank)).unwrap();
    assert_eq!(glyph.program, PROGRAM);
    assert_eq!(glyph.bytes_run, 12);
}

#[test]
fn finishing() {
    let mut out = [0xA5; 16];
    let widths = |default| Widths { default, nominal: 0.0 };
    assert_eq!(finish(500.0, &PROGRAM, widths(500.0), &mut out).unwrap(), PROGRAM);
    let expected = [&[0xF8, 0x88][..], &PROGRAM].concat();
    assert_eq!(finish(500.0, &PROGRAM, widths(0.0), &mut out).unwrap(), expected);
    assert!(out[9..].iter().all(|b| *b == 0));
    assert_eq!(
        finish(500.0, &PROGRAM, widths(0.0), &mut out[..8]),
        Err(Refusal::OutputShort)
    );
    assert_eq!(finish(1e9, &PROGRAM, widths(0.0), &mut out), Err(Refusal::NumberRange));
    assert_eq!(out, [0; 16]);
}

#[test]
fn converting_and_finishing() {
    let mut lent = Lent::usual();
    let widths = Widths {
        default: 0.0,
        nominal: 0.0,
    };
    let stores = Stores {
        stems: &mut lent.stems,
        commands: &mut lent.commands,
    };
    let input = plain(&WORKED, &NO_SUBRS);
    let glyph = convert_finished(&input, stores, &mut lent.program, widths, &mut lent.out).unwrap();
    assert_eq!(glyph.program, [&[0xF8, 0x88][..], &PROGRAM].concat());
    assert_eq!((glyph.width, glyph.bytes_run), (500.0, 12));
    assert!(lent.stores_are_zeros());
    assert!(lent.program.iter().all(|b| *b == 0));
}

fn strict<'a>(charstring: &'a [u8], bank: &'a [u8]) -> Input<'a> {
    let mut input = plain(charstring, bank);
    input.settings.strict = true;
    input
}

/// Document 02's strict reading: 24 operands fit; 5 and 11 come before 22.
#[test]
fn strict_reading() {
    assert_eq!(refused(&strict(&[0x8B; 25], &NO_SUBRS)), 22);
    let after_24 = |rest: &[u8]| [&[0x8B; 24][..], rest].concat();
    assert_eq!(refused(&strict(&after_24(&[0xF7]), &NO_SUBRS)), 5);
    assert_eq!(refused(&strict(&after_24(&[0x0C, 0x11]), &NO_SUBRS)), 11);
    // A pop brings the 25th: 1 is left by OtherSubr 4.
    let popped = [&[0x8C, 0x8C, 0x8F, 0x0C, 0x10][..], &[0x8B; 24], &[0x0C, 0x11]].concat();
    assert_eq!(refused(&strict(&popped, &NO_SUBRS)), 22);
    for code in [after_24(&[0x09]), WORKED.to_vec()] {
        let (mut lent, mut other) = (Lent::usual(), Lent::usual());
        let glyph = lent.convert(&strict(&code, &NO_SUBRS)).unwrap();
        assert_eq!(glyph, other.convert(&plain(&code, &NO_SUBRS)).unwrap());
    }
    // The present reading has room for 256, in both functions.
    let mut lent = Lent::usual();
    assert_eq!(lent.convert(&plain(&[0x8B; 25], &NO_SUBRS)).unwrap().program, [0x0E]);
    let widths = Widths {
        default: 0.0,
        nominal: 0.0,
    };
    for (input, number) in [(strict(&[0x8B; 25], &NO_SUBRS), 22), (plain(&[0x8B; 25], &NO_SUBRS), 0)] {
        let mut lent = Lent::usual();
        let stores = Stores {
            stems: &mut lent.stems,
            commands: &mut lent.commands,
        };
        let glyph = convert_finished(&input, stores, &mut lent.program, widths, &mut lent.out);
        assert_eq!(glyph.map_or_else(Refusal::number, |_| 0), number);
        assert!(lent.stores_are_zeros());
    }
}

#[test]
fn widths_of_a_font() {
    let mut scratch = [7.0; 4];
    let expected = Widths {
        default: 500.0,
        nominal: 707.0,
    };
    assert_eq!(choose_widths(&[500.0, 500.0, 600.0], &mut scratch), Ok(expected));
    assert_eq!(scratch, [0.0; 4]);
    assert_eq!(choose_widths(&[f64::NAN], &mut scratch), Err(Refusal::WidthNotFinite));
    assert_eq!(
        choose_widths(&[1.0, 2.0], &mut scratch[..1]),
        Err(Refusal::ScratchShort)
    );
    let none = Widths {
        default: 0.0,
        nominal: 0.0,
    };
    assert_eq!(choose_widths(&[], &mut []), Ok(none));
}

#[test]
fn boxes() {
    let window = |left, bottom, right, top| Bounds {
        left,
        bottom,
        right,
        top,
    };
    let all = window(i64::MIN, i64::MIN, i64::MAX, i64::MAX);
    // 10 20 rmoveto, 5 0 rlineto.
    let sides = window(10 << 16, 20 << 16, 15 << 16, 20 << 16);
    assert_eq!(glyph_box(&PROGRAM, all), Ok((sides, Verdict::Within)));
    assert_eq!(glyph_box(&PROGRAM, sides), Ok((sides, Verdict::Within)));
    let with_width = [&[0xF8, 0x88][..], &PROGRAM].concat();
    assert_eq!(glyph_box(&with_width, sides), Ok((sides, Verdict::Within)));
    let short = window(10 << 16, 20 << 16, (15 << 16) - 1, 20 << 16);
    assert_eq!(glyph_box(&PROGRAM, short), Ok((sides, Verdict::Crossing)));
    let above = window(10 << 16, (20 << 16) + 1, 15 << 16, i64::MAX);
    assert_eq!(glyph_box(&PROGRAM, above), Ok((sides, Verdict::Outside)));
    let empty = window(15 << 16, 20 << 16, 10 << 16, 20 << 16);
    assert_eq!(glyph_box(&PROGRAM, empty), Ok((sides, Verdict::Outside)));
    // -0.5 hmoveto.
    let half = window(-0x8000, 0, -0x8000, 0);
    assert_eq!(
        glyph_box(&[0xFF, 0xFF, 0xFF, 0x80, 0x00, 0x16, 0x0E], half),
        Ok((half, Verdict::Within))
    );
    for refused in [&[][..], &[0x0E], &PROGRAM[..6], &WORKED] {
        assert_eq!(glyph_box(refused, all), Err(Refusal::NoBox));
    }
}

#[test]
fn decrypting() {
    let mut out = [0xA5; 4];
    assert_eq!(decrypt(&[0, 0], 0, &mut out).unwrap(), [0x10, 0xD8]);
    assert_eq!(out, [0x10, 0xD8, 0, 0]);
    assert_eq!(decrypt(&[1, 2, 3], NOT_ENCRYPTED, &mut out).unwrap(), [1, 2, 3]);
    assert_eq!(decrypt(&[0, 0], 5, &mut out).unwrap(), []);
    assert_eq!(decrypt(&[0, 0], 0, &mut out[..1]), Err(Refusal::OutputShort));
}

/// Document 01's example of each number that a charstring is refused with.
#[test]
fn refusals() {
    let code = |bytes: &[u8]| refused(&plain(bytes, &NO_SUBRS));
    assert_eq!(code(&vec![0x09; 1_048_577]), 3);
    assert_eq!(code(&[0xF7]), 5);
    assert_eq!(code(&[0x02]), 6);
    assert_eq!(code(&[0x05]), 7);
    assert_eq!(code(&[0x8B, 0x0A]), 8);
    assert_eq!(code(&[0x8B, 0x8B, 0x0C, 0x10]), 9);
    assert_eq!(code(&[0x8C, 0x8B, 0x0C, 0x0C]), 10);
    assert_eq!(code(&[0x0C, 0x11]), 11);
    assert_eq!(code(&[0x0C, 0x06]), 12);
    assert_eq!(code(&[0xFF, 0x00, 0x00, 0x9C, 0x40, 0x16]), 13);
    let mut quotient = vec![0x8C];
    for _ in 0..40 {
        quotient.extend([0x8C, 0xFF, 0x7F, 0xFF, 0xFF, 0xFF, 0x0C, 0x0C, 0x0C, 0x0C]);
    }
    assert_eq!(code(&quotient), 14);
    assert_eq!(code(&[0x8B; 257]), 15);
    let mut stems = Vec::new();
    for i in 0..257 {
        stems.extend([0xF7 + (i / 256) as u8, (i % 256) as u8, 0x8C, 0x01]);
    }
    assert_eq!(code(&stems), 16);
    let itself = bank_of(&[[0x8B, 0x0A]]);
    assert_eq!(refused(&plain(&[0x8B, 0x0A], &itself)), 4);
    assert_eq!(refused(&plain(&WORKED, &[0, 1])), 2);
    let mut input = plain(&WORKED, &NO_SUBRS);
    input.matrix[0] = f64::NAN;
    assert_eq!(refused(&input), 1);
    let mut lent = Lent::new(256, 0, 64);
    let full = lent.convert(&plain(&[0x8C, 0x16], &NO_SUBRS));
    assert_eq!(full, Err(Refusal::CommandsFull));
}

#[test]
fn numbers_of_refusals() {
    assert_eq!(Refusal::from_number(0), None);
    assert_eq!(Refusal::from_number(23), None);
    assert_eq!(Refusal::from_number(u64::MAX), None);
    for number in 1..=22 {
        assert_eq!(Refusal::from_number(number).unwrap().number(), number);
    }
    assert_eq!(Refusal::DivByZero.to_string(), "10: div by 0");
}

#[test]
fn banks() {
    assert_eq!(bank_of::<&[u8]>(&[]), NO_SUBRS);
    let bodies = [&[1u8, 2][..], &[3]];
    let two = [0, 2, 0, 0, 0, 0, 0, 0, 0, 2, 0, 0, 0, 3, 1, 2, 3];
    assert_eq!(bank_of(&bodies), two);
    let mut out = [0xA5; 20];
    assert_eq!(bank(&bodies, &mut out).unwrap(), two);
    assert_eq!(out[17..], [0xA5; 3]);
    assert_eq!(bank(&bodies, &mut out[..16]), None);
    let many = vec![&[][..] as &[u8]; 65_536];
    assert_eq!(bank_len(&many[1..]), Some(2 + 4 * 65_536));
    assert_eq!(bank_len(&many), None);
    assert_eq!(bank(&many, &mut [0; 300_000]), None);
}
