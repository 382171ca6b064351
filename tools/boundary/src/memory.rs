//! Memory in which lists are lent: whatever a call does outside of its list is noticed.

use crate::ffi;
use std::{
    mem::{size_of, size_of_val},
    ptr,
    sync::atomic::{AtomicUsize, Ordering},
};

/// Bytes that can be read and written; no list that a call may read is longer.
const OPEN: usize = 1 << 19;
/// Bytes in front of and behind them, at which the process stops.
const SHUT: usize = 1 << 20;
/// Bytes that stand beside a list, and must be as they were.
const GUARD: usize = 64;
/// What they are.
const GUARD_BYTE: u8 = 0xA5;

/// Which end of the open memory a list stands at: its other side has the guard. A list of length 0 is NULL.
#[derive(Copy, Clone, PartialEq, Debug)]
pub enum Side {
    Front,
    Back,
    /// At the back, where a list of length 0 has a pointer too, to memory that is shut.
    Placed,
}

/// Counts the lists that are lent as NULL.
static NULLS: AtomicUsize = AtomicUsize::new(0);

/// How many there have been.
pub fn nulls() -> usize {
    NULLS.load(Ordering::Relaxed)
}

/// Runs a case at a side, and where a list of it was NULL, once more with a pointer.
pub fn with_and_without(side: Side, mut run: impl FnMut(Side)) {
    let before = nulls();
    run(side);
    if nulls() > before {
        run(Side::Placed);
    }
}

/// Open memory between shut memory, in which one list is lent at a time.
pub struct Memory {
    open: *mut u8,
    at: usize,
    bytes: usize,
    side: Side,
}

impl Memory {
    /// Memory of its own.
    pub fn new() -> Self {
        let flags = ffi::MAP_PRIVATE_ANONYMOUS;
        // SAFETY: new memory is asked for, and its middle opened.
        let open = unsafe {
            let all = ffi::mmap(
                ptr::null_mut(),
                SHUT + OPEN + SHUT,
                ffi::PROT_NONE,
                flags,
                -1,
                0,
            );
            assert_ne!(all as isize, -1, "no memory");
            let open = all.add(SHUT);
            assert_eq!(ffi::mprotect(open, OPEN, ffi::PROT_READ_WRITE), 0);
            open
        };
        Self {
            open,
            at: 0,
            bytes: 0,
            side: Side::Front,
        }
    }

    /// Lends a list at one side, with its guard.
    pub fn lend<T: Copy>(&mut self, list: &[T], side: Side) -> *mut T {
        self.bytes = size_of_val(list);
        assert!(self.bytes + GUARD <= OPEN, "a list is too long to be lent");
        self.side = side;
        self.at = match side {
            Side::Front => 0,
            Side::Back | Side::Placed => OPEN - self.bytes,
        };
        // SAFETY: list and guard lie in the open memory, and the list's place is as aligned as the memory's ends.
        unsafe {
            let place = self.open.add(self.at);
            ptr::copy_nonoverlapping(list.as_ptr().cast(), place, self.bytes);
            self.guard().write_bytes(GUARD_BYTE, GUARD);
            if list.is_empty() && side != Side::Placed {
                NULLS.fetch_add(1, Ordering::Relaxed);
                return ptr::null_mut();
            }
            place.cast()
        }
    }

    /// A list that can be neither read nor written.
    pub fn shut<T>(&mut self) -> *mut T {
        self.bytes = 0;
        self.side = Side::Front;
        self.at = 0;
        // SAFETY: the guard lies in the open memory, and the shut memory is behind it.
        unsafe {
            self.guard().write_bytes(GUARD_BYTE, GUARD);
            self.open.add(OPEN).cast()
        }
    }

    /// Where the guard is.
    unsafe fn guard(&self) -> *mut u8 {
        match self.side {
            Side::Front => self.open.add(self.bytes),
            Side::Back | Side::Placed => self.open.add(self.at - GUARD),
        }
    }

    /// Whether the guard is as it was.
    pub fn is_guarded(&self) -> bool {
        // SAFETY: the guard lies in the open memory.
        unsafe { std::slice::from_raw_parts(self.guard(), GUARD) }
            .iter()
            .all(|byte| *byte == GUARD_BYTE)
    }

    /// What the lent list holds now.
    pub fn held<T: Copy>(&self) -> &[T] {
        // SAFETY: the list was lent here as a list of this type.
        unsafe {
            let place = self.open.add(self.at).cast();
            std::slice::from_raw_parts(place, self.bytes / size_of::<T>())
        }
    }
}

/// The words of a list that can be neither read nor written: so many at most.
pub const SHUT_WORDS: usize = SHUT / size_of::<i32>();
