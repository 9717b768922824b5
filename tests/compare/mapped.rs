// Memory that is mapped lazily, for images and pages far larger than the machine's own (Linux on x86-64).
use std::ffi::{c_char, c_int, c_uint, c_void};
use std::ops::{Deref, DerefMut};

const READ_WRITE: c_int = 1 | 2;
const SHARED: c_int = 1;
const PRIVATE: c_int = 2;
const FIXED: c_int = 0x10;
const ANONYMOUS: c_int = 0x20;
const NO_RESERVE: c_int = 0x4000;

extern "C" {
    fn mmap(at: *mut c_void, len: usize, access: c_int, flags: c_int, file: c_int, offset: i64) -> *mut c_void;
    fn munmap(at: *mut c_void, len: usize) -> c_int;
    fn memfd_create(name: *const c_char, flags: c_uint) -> c_int;
    fn ftruncate(file: c_int, len: i64) -> c_int;
    fn close(file: c_int) -> c_int;
}

pub struct Mapped {
    at: *mut c_void,
    len: usize,
}

fn map(at: *mut c_void, len: usize, flags: c_int, file: c_int) -> *mut c_void {
    // SAFETY: the kernel chooses the addresses, or they are those of a map that nobody has been lent yet.
    let at = unsafe { mmap(at, len, READ_WRITE, flags, file, 0) };
    assert_ne!(at as isize, -1, "{len} bytes of addresses");
    at
}

impl Mapped {
    /// Zeros. A part takes memory once it is written.
    pub fn zeros(len: usize) -> Mapped {
        Mapped { at: map(std::ptr::null_mut(), len, PRIVATE | ANONYMOUS | NO_RESERVE, -1), len }
    }

    /// `times` copies of one window, a multiple of 4,096 bytes, one after the other: they share their memory, so the last
    /// bytes written to a place of the window are what all copies show there. For outputs that are written and not read.
    pub fn window(len: usize, times: usize) -> Mapped {
        let mapped = Mapped::zeros(len * times);
        // SAFETY: the name ends with a zero byte.
        let file = unsafe { memfd_create(c"window".as_ptr(), 0) };
        // SAFETY: ftruncate is lent two numbers.
        assert!(file >= 0 && unsafe { ftruncate(file, len as i64) } == 0, "a file in memory");
        for i in 0..times {
            map(mapped.at.wrapping_byte_add(i * len), len, SHARED | FIXED, file);
        }
        // SAFETY: the file is open, and nobody else has its number.
        unsafe { close(file) };
        mapped
    }
}

impl Deref for Mapped {
    type Target = [u8];

    fn deref(&self) -> &[u8] {
        // SAFETY: the map has len bytes, and lasts as long as self.
        unsafe { std::slice::from_raw_parts(self.at.cast(), self.len) }
    }
}

impl DerefMut for Mapped {
    fn deref_mut(&mut self) -> &mut [u8] {
        // SAFETY: as above; self is lent for writing.
        unsafe { std::slice::from_raw_parts_mut(self.at.cast(), self.len) }
    }
}

impl Drop for Mapped {
    fn drop(&mut self) {
        // SAFETY: the map is self's, and no slice of it outlives self.
        unsafe { munmap(self.at, self.len) };
    }
}
