//! Memory to lend (on Linux): it lies between pages that can be neither read nor written, so that an access past its end faults.

use std::ffi::{c_int, c_void};

extern "C" {
    fn mmap(address: *mut c_void, length: usize, protection: c_int, flags: c_int, file: c_int, offset: i64) -> *mut c_void;
    fn mprotect(address: *mut c_void, length: usize, protection: c_int) -> c_int;
    fn signal(number: c_int, handler: extern "C" fn(c_int)) -> usize;
}

const PROT_NONE: c_int = 0;
const PROT_READ: c_int = 1;
const PROT_WRITE: c_int = 2;
const MAP_PRIVATE: c_int = 0x02;
const MAP_ANONYMOUS: c_int = 0x20;
const SIGBUS: c_int = 7;
const SIGSEGV: c_int = 11;

/// A multiple of every usual page size.
const BLOCK: usize = 65_536;

/// Blocks to lend, with a forbidden block in front and one behind.
pub struct Lent {
    start: *mut u8,
    bytes: usize,
}

impl Lent {
    /// Memory of which so many bytes can be lent, or a few more.
    pub fn new(least: usize) -> Lent {
        let bytes = least.next_multiple_of(BLOCK);
        // SAFETY: a mapping of its own, tested before use and kept until the program ends.
        unsafe {
            let whole = mmap(std::ptr::null_mut(), bytes + 2 * BLOCK, PROT_NONE, MAP_PRIVATE | MAP_ANONYMOUS, -1, 0);
            assert!(whole as isize != -1, "mmap failed");
            let start = whole.cast::<u8>().add(BLOCK);
            assert_eq!(mprotect(start.cast(), bytes, PROT_READ | PROT_WRITE), 0, "mprotect failed");
            Lent { start, bytes }
        }
    }

    /// The last `length` bytes of the blocks.
    pub fn last(&mut self, length: usize) -> &mut [u8] {
        assert!(length <= self.bytes);
        // SAFETY: the slice lies in the blocks that may be read and written, and borrows the only handle to them.
        unsafe { std::slice::from_raw_parts_mut(self.start.add(self.bytes - length), length) }
    }
}

/// Has a fault call `handler`, which must end the program.
pub fn at_fault(handler: extern "C" fn(c_int)) {
    // SAFETY: the handler runs in place of the faulting access, inside the library's call, and ends the program.
    unsafe {
        signal(SIGSEGV, handler);
        signal(SIGBUS, handler);
    }
}
