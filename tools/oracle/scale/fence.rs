//! Inputs that end where memory ends: a read behind them stops the program.

unsafe extern "C" {
    fn mmap(at: *mut u8, len: usize, protection: i32, flags: i32, file: i32, offset: i64) -> *mut u8;
    fn mprotect(at: *mut u8, len: usize, protection: i32) -> i32;
    fn munmap(at: *mut u8, len: usize) -> i32;
}

// Linux's values for x86-64.
const READ_WRITE: i32 = 3;
const NO_ACCESS: i32 = 0;
const PRIVATE_ANONYMOUS: i32 = 0x22;
const PAGE: usize = 4096;

/// Memory with a page behind it that cannot be read.
pub struct Fence {
    start: *mut u8,
    room: usize,
}

impl Fence {
    pub fn new() -> Self {
        let mut fence = Self {
            start: std::ptr::null_mut(),
            room: 0,
        };
        fence.make(PAGE);
        fence
    }

    fn make(&mut self, room: usize) {
        self.remove();
        let room = room.next_multiple_of(PAGE);
        unsafe {
            let start = mmap(std::ptr::null_mut(), room + PAGE, READ_WRITE, PRIVATE_ANONYMOUS, -1, 0);
            assert!(start as isize != -1, "memory is mapped");
            assert!(mprotect(start.add(room), PAGE, NO_ACCESS) == 0, "the fence is set");
            (self.start, self.room) = (start, room);
        }
    }

    fn remove(&mut self) {
        if self.room > 0 {
            unsafe { munmap(self.start, self.room + PAGE) };
        }
    }

    /// A copy of the input that ends at the fence.
    pub fn hold(&mut self, input: &[u8]) -> *const u8 {
        if input.len() > self.room {
            self.make(input.len());
        }
        unsafe {
            let at = self.start.add(self.room - input.len());
            at.copy_from_nonoverlapping(input.as_ptr(), input.len());
            at
        }
    }

    /// The copy is as it was.
    pub fn holds(&self, input: &[u8]) -> bool {
        let at = unsafe { std::slice::from_raw_parts(self.start.add(self.room - input.len()), input.len()) };
        at == input
    }
}

impl Drop for Fence {
    fn drop(&mut self) {
        self.remove();
    }
}
