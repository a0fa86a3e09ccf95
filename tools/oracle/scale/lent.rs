//! Stores and outputs as they are lent: not zeros before a call, with guards at both ends.

use crate::archive;

/// Words of a guard.
const GUARD: usize = 8;

const GUARD_WORD: u64 = 0xC7C6_C5C4_C3C2_C1C0;

/// What lies in a lent word, byte or double before a call.
const USED_WORD: u64 = 0x5A5A_5A5A_5A5A_5A5A;

/// A stem record before a call: horizontal, its padding not zeros.
const USED_RECORD: [u64; 3] = [0xEEEE_EEEE_EEEE_EE01, USED_WORD, USED_WORD];

/// A place in memory with a lent part and a guard before and after it.
pub struct Place {
    memory: Vec<u64>,
    /// The lent part: where it starts and how long it is, in bytes.
    start: usize,
    len: usize,
}

impl Place {
    pub fn new() -> Self {
        Self {
            memory: Vec::new(),
            start: 0,
            len: 0,
        }
    }

    fn bytes(&self) -> &[u8] {
        unsafe { std::slice::from_raw_parts(self.memory.as_ptr().cast(), 8 * self.memory.len()) }
    }

    fn bytes_mut(&mut self) -> &mut [u8] {
        unsafe { std::slice::from_raw_parts_mut(self.memory.as_mut_ptr().cast(), 8 * self.memory.len()) }
    }

    /// A lent part of so many bytes that starts `shift` bytes after a whole word, all filled, and the guards.
    fn lend(&mut self, len: usize, shift: usize, fill: u8) -> *mut u8 {
        let words = 2 * GUARD + (shift + len).div_ceil(8);
        if self.memory.len() < words {
            self.memory.resize(words, 0);
        }
        (self.start, self.len) = (8 * GUARD + shift, len);
        let guard = GUARD_WORD.to_ne_bytes();
        let (start, end) = (self.start, self.start + len);
        let all = self.bytes_mut();
        for i in (start - 8 * GUARD..start).chain(end..8 * words.min(end / 8 + GUARD)) {
            all[i] = guard[i % 8];
        }
        all[start..end].fill(fill);
        unsafe { all.as_mut_ptr().add(start) }
    }

    /// Bytes, from `shift` after a whole word.
    pub fn lend_bytes(&mut self, len: usize, shift: usize) -> *mut u8 {
        self.lend(len, shift, 0xA5)
    }

    pub fn lend_words(&mut self, len: usize) -> *mut u64 {
        self.lend(8 * len, 0, 0x5A).cast()
    }

    pub fn lend_records(&mut self, len: usize) -> *mut archive::Stem {
        let at: *mut u64 = self.lend(24 * len, 0, 0).cast();
        for i in 0..len {
            for (k, word) in USED_RECORD.iter().enumerate() {
                unsafe { at.add(3 * i + k).write(*word) };
            }
        }
        at.cast()
    }

    pub fn lent(&self) -> &[u8] {
        &self.bytes()[self.start..self.start + self.len]
    }

    /// The guards are as they were.
    pub fn is_guarded(&self) -> bool {
        let guard = GUARD_WORD.to_ne_bytes();
        let all = self.bytes();
        let (start, end) = (self.start, self.start + self.len);
        let words = 2 * GUARD + (start - 8 * GUARD + self.len).div_ceil(8);
        (start - 8 * GUARD..start)
            .chain(end..8 * words.min(end / 8 + GUARD))
            .all(|i| all[i] == guard[i % 8])
    }

    pub fn is_zeros(&self) -> bool {
        self.lent().iter().all(|b| *b == 0)
    }

    /// Every record's fields are zeros; its padding may be anything.
    pub fn has_zero_records(&self) -> bool {
        self.lent()
            .chunks_exact(24)
            .all(|r| r[0] == 0 && r[8..].iter().all(|b| *b == 0))
    }
}
