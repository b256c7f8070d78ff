//! Memory with a page before it and a page after it that nobody may touch, so that a read or write beside it ends the process.

use std::ffi::c_void;
use std::io;
use std::marker::PhantomData;
use std::sync::atomic::{AtomicUsize, Ordering};
use std::{ptr, slice};

/// The size of a page, or a multiple of it.
const PAGE: usize = 65_536;

// What Linux names these in <sys/mman.h> and <signal.h>.
const PROT_NONE: i32 = 0;
const PROT_READ: i32 = 1;
const PROT_WRITE: i32 = 2;
const MAP_PRIVATE: i32 = 2;
const MAP_ANONYMOUS: i32 = 0x20;
const SIGBUS: i32 = 7;
const SIGSEGV: i32 = 11;
const SIGALRM: i32 = 14;

unsafe extern "C" {
    fn mmap(
        address: *mut c_void,
        length: usize,
        protection: i32,
        flags: i32,
        file: i32,
        offset: i64,
    ) -> *mut c_void;
    fn mprotect(address: *mut c_void, length: usize, protection: i32) -> i32;
    fn munmap(address: *mut c_void, length: usize) -> i32;
    fn signal(number: i32, handler: extern "C" fn(i32)) -> usize;
    fn alarm(seconds: u32) -> u32;
    fn write(file: i32, text: *const u8, length: usize) -> isize;
    fn _exit(status: i32) -> !;
}

/// Which of its two pages the entries lie against.
#[derive(Clone, Copy, Debug, PartialEq, Eq)]
pub enum Side {
    Before,
    After,
}

/// Entries in guarded memory.
pub struct Guarded<T> {
    /// The first byte between the two pages.
    start: *mut u8,
    /// The bytes between the two pages, a multiple of [`PAGE`].
    room: usize,
    /// Where the entries start, from the first byte.
    offset: usize,
    length: usize,
    entries: PhantomData<T>,
}

impl<T: Copy> Guarded<T> {
    /// Room for so many entries, of which it holds none.
    pub fn new(most: usize) -> Guarded<T> {
        let room = (most * size_of::<T>()).next_multiple_of(PAGE).max(PAGE);
        let whole = room + 2 * PAGE;
        let flags = MAP_PRIVATE | MAP_ANONYMOUS;
        // SAFETY: a new mapping, at no address in particular, touches no other memory.
        let mapping = unsafe { mmap(ptr::null_mut(), whole, PROT_NONE, flags, -1, 0) };
        let failed = mapping.is_null() || mapping.addr() == usize::MAX;
        assert!(!failed, "no memory: {}", io::Error::last_os_error());
        let guarded = Guarded {
            // SAFETY: the mapping is longer than a page.
            start: unsafe { mapping.cast::<u8>().add(PAGE) },
            room,
            offset: room,
            length: 0,
            entries: PhantomData,
        };
        guarded.protect(PROT_READ | PROT_WRITE);
        guarded
    }

    fn protect(&self, protection: i32) {
        // SAFETY: the bytes between the two pages are this mapping's own.
        let status = unsafe { mprotect(self.start.cast(), self.room, protection) };
        assert!(status == 0, "{}", io::Error::last_os_error());
    }

    /// Holds these entries, against one of the two pages.
    pub fn hold(&mut self, entries: &[T], side: Side) -> &mut [T] {
        let bytes = size_of_val(entries);
        assert!(bytes <= self.room, "{bytes} bytes in {}", self.room);
        self.offset = match side {
            Side::Before => 0,
            Side::After => self.room - bytes,
        };
        self.length = entries.len();
        let held = self.as_mut_slice();
        held.copy_from_slice(entries);
        held
    }

    /// The entries that it holds.
    pub fn as_slice(&self) -> &[T] {
        // SAFETY: the entries lie between the two pages, at a multiple of their alignment, and were written by `hold`.
        unsafe { slice::from_raw_parts(self.start.add(self.offset).cast(), self.length) }
    }

    /// The same to write.
    pub fn as_mut_slice(&mut self) -> &mut [T] {
        // SAFETY: as above, and nobody else has them while this is borrowed.
        unsafe { slice::from_raw_parts_mut(self.start.add(self.offset).cast(), self.length) }
    }

    /// Makes a write end the process, or lets it pass again.
    pub fn forbid_writing(&self, forbid: bool) {
        let writing = if forbid { 0 } else { PROT_WRITE };
        self.protect(PROT_READ | writing);
    }
}

impl<T> Drop for Guarded<T> {
    fn drop(&mut self) {
        // SAFETY: the mapping is this one's own, and no borrow of it is left.
        unsafe { munmap(self.start.sub(PAGE).cast(), self.room + 2 * PAGE) };
    }
}

/// What is being tried, for the message of [`stray`].
static CURRENT: AtomicUsize = AtomicUsize::new(0);

/// Makes a stray read or write, and a call that does not end within so many seconds of the last [`trying`], end the process with a message
/// that names what was tried.
pub fn watch(seconds: u32) {
    // SAFETY: the handler calls nothing but `write` and `_exit`, which may be called at any time.
    unsafe {
        signal(SIGSEGV, stray);
        signal(SIGBUS, stray);
        signal(SIGALRM, stray);
        alarm(seconds);
    }
}

/// Notes what is tried next, and gives it the time again.
pub fn trying(number: usize, seconds: u32) {
    CURRENT.store(number, Ordering::Relaxed);
    if number.is_multiple_of(1_024) {
        // SAFETY: it sets a clock.
        unsafe { alarm(seconds) };
    }
}

extern "C" fn stray(number: i32) {
    let mut text = match number {
        SIGALRM => *b"no end of trial                      \n",
        _ => *b"stray read or write in trial         \n",
    };
    let mut rest = CURRENT.load(Ordering::Relaxed);
    let mut place = text.len() - 2;
    while rest > 0 && place > 28 {
        text[place] = b'0' + (rest % 10) as u8;
        rest /= 10;
        place -= 1;
    }
    // SAFETY: the text is this function's own.
    unsafe {
        write(2, text.as_ptr(), text.len());
        _exit(3)
    }
}
