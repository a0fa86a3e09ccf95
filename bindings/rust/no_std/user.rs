//! A program without `std`, without an allocator and without a C library, for Linux on x86-64: it converts and
//! finishes document 01's worked glyph, and asks for its box. Its exit status is 0, or the line of the check that failed.

#![no_std]
#![no_main]

use core::arch::{asm, global_asm};
use core::panic::PanicInfo;
use core::ptr::write_volatile;
use cribstork::{
    Bounds, ENTRY_WORDS, IDENTITY, Input, NO_SUBRS, Refusal, Settings, Stem, Stores, Verdict, Widths,
};

/// All that the archive needs of a C library.
///
/// # Safety
/// `to` is valid for `n` bytes.
#[unsafe(no_mangle)]
unsafe extern "C" fn memset(to: *mut u8, byte: i32, n: usize) -> *mut u8 {
    for i in 0..n {
        // SAFETY: i is below n. Volatile, so that the loop is not made a call of memset.
        unsafe { write_volatile(to.add(i), byte as u8) };
    }
    to
}

/// Named by the `core` of Rust's Linux target, which is built to unwind; never called. A bare target needs none.
#[unsafe(no_mangle)]
extern "C" fn rust_eh_personality() {}

fn exit(status: u32) -> ! {
    // SAFETY: 60 is Linux's exit.
    unsafe { asm!("syscall", in("rax") 60, in("rdi") u64::from(status), options(noreturn, nostack)) }
}

#[panic_handler]
fn failed(info: &PanicInfo) -> ! {
    exit(info.location().map_or(255, |at| at.line()))
}

// The stack is aligned for a call.
global_asm!(".globl _start", "_start:", "and rsp, -16", "call {main}", main = sym main);

extern "C" fn main() -> ! {
    let charstring = [0x8B, 0xF8, 0x88, 0x0D, 0x95, 0x9F, 0x15, 0x90, 0x8B, 0x05, 0x09, 0x0E];
    let input = Input {
        charstring: &charstring,
        bank: &NO_SUBRS,
        settings: Settings::default(),
        matrix: IDENTITY,
    };
    let widths = Widths {
        default: 0.0,
        nominal: 0.0,
    };
    let mut stems = [Stem::default(); 16];
    let mut commands = [0; 16 * ENTRY_WORDS];
    let (mut program, mut out) = ([0; 64], [0; 64]);
    let stores = Stores {
        stems: &mut stems,
        commands: &mut commands,
    };
    let glyph = cribstork::convert_finished(&input, stores, &mut program, widths, &mut out);
    assert!(glyph.is_ok_and(|g| g.program == [0xF8, 0x88, 0x95, 0x9F, 0x15, 0x90, 0x8B, 0x05, 0x0E]));

    let side = 20 << 16;
    let window = Bounds {
        left: 0,
        bottom: 0,
        right: side,
        top: side,
    };
    let sides = Bounds {
        left: side / 2,
        bottom: side,
        right: side / 4 * 3,
        top: side,
    };
    assert!(cribstork::glyph_box(&out, window) == Ok((sides, Verdict::Within)));

    let mut place = [0; 12];
    let itself = cribstork::bank(&[[0x8B, 0x0A]], &mut place);
    assert!(itself.is_some());
    let deep = Input {
        charstring: &[0x8B, 0x0A],
        bank: itself.unwrap_or(&[]),
        ..input
    };
    let stores = Stores {
        stems: &mut stems,
        commands: &mut commands,
    };
    assert!(cribstork::convert(&deep, stores, &mut out) == Err(Refusal::Depth));
    exit(0)
}
