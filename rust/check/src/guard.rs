//! Memory to lend that lies between two pages which nobody may touch.
//!
//! One byte read or written past the page ends the process by SIGSEGV. The bytes of the page around the
//! lent area are filled with a mark and looked at afterwards, so that the side without a guard is
//! watched as well. A state or a list of records goes by value: the compiler puts that copy on the
//! stack, where it can't be guarded.

use core::ffi::{c_int, c_long, c_void};

const PAGE: usize = 4096;
const PROT_NONE: c_int = 0;
const PROT_READ: c_int = 1;
const PROT_WRITE: c_int = 2;
const MAP_PRIVATE: c_int = 0x02;
const MAP_ANONYMOUS: c_int = 0x20;

extern "C" {
    fn mmap(
        at: *mut c_void,
        length: usize,
        protection: c_int,
        flags: c_int,
        file: c_int,
        offset: c_long,
    ) -> *mut c_void;
    fn mprotect(at: *mut c_void, length: usize, protection: c_int) -> c_int;
    fn munmap(at: *mut c_void, length: usize) -> c_int;
}

/// Where the lent area lies in the page.
#[derive(Clone, Copy, Debug, PartialEq, Eq)]
pub enum Side {
    /// It begins right after the guard page before it.
    Front,
    /// It ends right before the guard page after it.
    Back,
}

/// A page of memory with a guard page on either side.
pub struct Guarded {
    page: *mut u8,
    mark: u8,
}

impl Guarded {
    pub fn mapped() -> Guarded {
        // SAFETY: a new mapping of three pages at no given place, of which the middle one is opened.
        unsafe {
            let flags = MAP_PRIVATE | MAP_ANONYMOUS;
            let pages = mmap(core::ptr::null_mut(), 3 * PAGE, PROT_NONE, flags, -1, 0);
            assert!(pages as isize != -1, "mmap");
            let page = pages.cast::<u8>().add(PAGE);
            assert_eq!(mprotect(page.cast(), PAGE, PROT_READ | PROT_WRITE), 0);
            Guarded { page, mark: 0 }
        }
    }

    fn start(side: Side, length: usize) -> usize {
        assert!(length <= PAGE);
        match side {
            Side::Front => 0,
            Side::Back => PAGE - length,
        }
    }

    /// The address of an area of this length.
    pub fn at(&self, side: Side, length: usize) -> *mut u8 {
        // SAFETY: within the page, or its end for a length of 0.
        unsafe { self.page.add(Self::start(side, length)) }
    }

    fn all(&self) -> &[u8] {
        // SAFETY: the page can be read at all times, and only `lend` writes it while no slice of it lives.
        unsafe { core::slice::from_raw_parts(self.page, PAGE) }
    }

    /// Fills the page with the mark and the area with its contents.
    pub fn lend(&mut self, side: Side, contents: &[u8], mark: u8) -> *mut u8 {
        self.mark = mark;
        let at = self.at(side, contents.len());
        // SAFETY: the page can be written, and the area lies in it.
        unsafe {
            self.page.write_bytes(mark, PAGE);
            at.copy_from_nonoverlapping(contents.as_ptr(), contents.len());
        }
        at
    }

    /// Runs a call during which the page can't be written.
    pub fn read_only<T>(&self, call: impl FnOnce() -> T) -> T {
        // SAFETY: the page is this struct's own.
        unsafe { assert_eq!(mprotect(self.page.cast(), PAGE, PROT_READ), 0) };
        let result = call();
        // SAFETY: as above.
        unsafe { assert_eq!(mprotect(self.page.cast(), PAGE, PROT_READ | PROT_WRITE), 0) };
        result
    }

    /// What the area of this length holds.
    pub fn contents(&self, side: Side, length: usize) -> &[u8] {
        let start = Self::start(side, length);
        &self.all()[start..start + length]
    }

    /// Whether the bytes around the area are as they were.
    pub fn intact(&self, side: Side, length: usize) -> bool {
        let start = Self::start(side, length);
        let (before, after) = (&self.all()[..start], &self.all()[start + length..]);
        before.iter().chain(after).all(|&byte| byte == self.mark)
    }
}

impl Drop for Guarded {
    fn drop(&mut self) {
        // SAFETY: the three pages of `mapped`.
        unsafe { munmap(self.page.sub(PAGE).cast(), 3 * PAGE) };
    }
}
