//! The charstring cipher.

use crate::charstring;
use crate::random::Random;
use crate::vector::{Fields, Vectors};

/// Any lenIV of this value means that nothing is encrypted.
pub const NOT_ENCRYPTED: usize = usize::MAX;

/// The inverse of stet's `decrypt_charstring`: `len_iv` random bytes, then the plain ones, encrypted.
pub fn encrypt(r: &mut Random, plain: &[u8], len_iv: usize) -> Vec<u8> {
    if len_iv == NOT_ENCRYPTED {
        return plain.to_vec();
    }
    let mut all = r.bytes(len_iv);
    all.extend(plain);
    let mut key: u16 = 4330;
    for b in &mut all {
        *b ^= (key >> 8) as u8;
        key = u16::from(*b).wrapping_add(key).wrapping_mul(52845).wrapping_add(22719);
    }
    assert!(charstring::decrypt_charstring(&all, len_iv) == plain);
    all
}

fn add(to: &mut Vectors, data: &[u8], len_iv: usize) {
    let plain = charstring::decrypt_charstring(data, len_iv);
    to.add(Fields::new().size(len_iv).string(data).string(&plain));
}

pub fn decrypt_charstring(r: &mut Random, to: &mut Vectors) {
    // Document 01, "Glyphs worked through".
    add(to, &[0, 0], 0);
    // Short data, with every lenIV to 8, one beyond the length, and no encryption.
    for n in 0..=12 {
        for len_iv in (0..=8).chain([n + 1, NOT_ENCRYPTED - 1, NOT_ENCRYPTED]) {
            add(to, &r.bytes(n), len_iv);
        }
    }
    // The key's low and high byte: bytes all alike.
    for b in [0x00, 0x7F, 0x80, 0xFF] {
        add(to, &[b; 64], 4);
    }
    while to.count() < 480 {
        let n = r.below(301) as usize;
        let len_iv = match r.below(12) {
            9 => n,
            10 => n + 1,
            11 => NOT_ENCRYPTED,
            k => k as usize,
        };
        add(to, &r.bytes(n), len_iv);
    }
}
