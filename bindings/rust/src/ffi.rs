//! The functions of include/cribstork.h.

/// A record of the stem store.
#[repr(C)]
#[derive(Clone, Copy, Debug, Default, PartialEq)]
pub struct Stem {
    pub horizontal: bool,
    pub pos: f64,
    pub width: f64,
}

/// The bit of a reading that makes it strict.
pub const CRIBSTORK_STRICT: u64 = 1;

unsafe extern "C" {
    pub fn cribstork_convert(
        charstring: *const u8,
        charstring_len: usize,
        bank: *const u8,
        bank_len: usize,
        len_iv: usize,
        reading: u64,
        matrix: *const [f64; 6],
        stems: *mut Stem,
        stems_len: usize,
        commands: *mut u64,
        commands_len: usize,
        out: *mut u8,
        out_len: usize,
        answer: *mut [u64; 4],
    ) -> u64;

    pub fn cribstork_finish(
        width: f64,
        program: *const u8,
        program_len: usize,
        default_width: f64,
        nominal_width: f64,
        out: *mut u8,
        out_len: usize,
        answer: *mut [u64; 2],
    ) -> u64;

    pub fn cribstork_convert_finished(
        charstring: *const u8,
        charstring_len: usize,
        bank: *const u8,
        bank_len: usize,
        len_iv: usize,
        reading: u64,
        matrix: *const [f64; 6],
        stems: *mut Stem,
        stems_len: usize,
        commands: *mut u64,
        commands_len: usize,
        program: *mut u8,
        program_len: usize,
        default_width: f64,
        nominal_width: f64,
        out: *mut u8,
        out_len: usize,
        answer: *mut [u64; 4],
    ) -> u64;

    pub fn cribstork_box(
        program: *const u8,
        program_len: usize,
        window: *const [i64; 4],
        bounds: *mut [i64; 4],
        answer: *mut [u64; 2],
    ) -> u64;

    pub fn cribstork_choose_widths(
        widths: *const f64,
        n: usize,
        scratch: *mut f64,
        scratch_len: usize,
        pair: *mut [f64; 2],
    ) -> u64;

    pub fn cribstork_decrypt(
        data: *const u8,
        n: usize,
        len_iv: usize,
        out: *mut u8,
        out_len: usize,
        answer: *mut [u64; 2],
    ) -> u64;
}
