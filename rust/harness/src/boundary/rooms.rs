//! Memory in which a slice is lent, so that a step outside is seen: by markers, by a page that cannot be touched, or by a memory
//! checker around a heap block of just that size.

use crate::lists::MARKER;
use std::ffi::{c_int, c_void};
use std::ptr::{self, null_mut};
use std::slice;

/// Markers around a lent slice.
const GUARD: usize = 64;

/// The size of a page, and what a slice next to a fence can have.
const PAGE: usize = 4096;
const FENCED: usize = 2 * PAGE;

#[derive(Clone, Copy, Debug, PartialEq)]
pub enum Place {
    /// NULL, for no bytes.
    Null,
    /// Between markers, so many bytes off a multiple of 8.
    Marked(usize),
    /// Behind markers, and ending at a page that cannot be touched.
    BeforeFence,
    /// Starting behind a page that cannot be touched, and before markers.
    BehindFence,
    /// In a heap block of its own.
    Exact,
}

/// A room holds one slice at a time.
#[derive(Default)]
pub struct Room {
    marked: Vec<u8>,
    fence: Option<Fence>,
    exact: Box<[u8]>,
    before: Vec<u8>,
    at: Option<Lent>,
}

/// Where the slice lies, and how many markers stand before and behind it.
#[derive(Clone, Copy)]
struct Lent {
    at: *mut u8,
    lead: usize,
    tail: usize,
}

impl Room {
    /// Puts a copy of these bytes in a place.
    pub fn lend(&mut self, bytes: &[u8], place: Place) -> *mut u8 {
        let len = bytes.len();
        self.before.clear();
        self.before.extend_from_slice(bytes);
        let lent = match place {
            Place::Null => Lent { at: null_mut(), lead: 0, tail: 0 },
            Place::Exact => {
                self.exact = bytes.into();
                Lent { at: self.exact.as_mut_ptr(), lead: 0, tail: 0 }
            }
            Place::BeforeFence if len + GUARD <= FENCED => {
                let fence = self.fence.get_or_insert_with(Fence::new);
                Lent { at: fence.within(FENCED - len), lead: GUARD, tail: 0 }
            }
            Place::BehindFence if len + GUARD <= FENCED => {
                let fence = self.fence.get_or_insert_with(Fence::new);
                Lent { at: fence.within(0), lead: 0, tail: GUARD }
            }
            Place::Marked(_) | Place::BeforeFence | Place::BehindFence => {
                let off = if let Place::Marked(off) = place { off } else { 0 };
                self.marked.resize(self.marked.len().max(len + 2 * GUARD + off), 0);
                Lent { at: self.marked[GUARD + off..].as_mut_ptr(), lead: GUARD, tail: GUARD }
            }
        };
        if place != Place::Null {
            // SAFETY: in each place there is room for the markers and the bytes.
            unsafe {
                lent.at.sub(lent.lead).write_bytes(MARKER, lent.lead);
                lent.at.copy_from_nonoverlapping(bytes.as_ptr(), len);
                lent.at.add(len).write_bytes(MARKER, lent.tail);
            }
        }
        self.at = Some(lent);
        lent.at
    }

    /// The bytes as they were lent.
    pub fn before(&self) -> &[u8] {
        &self.before
    }

    /// What is left of them.
    pub fn after(&self) -> &[u8] {
        let lent = self.at.expect("a slice is lent");
        self.around(lent.at, self.before.len())
    }

    fn around(&self, at: *const u8, len: usize) -> &[u8] {
        if len == 0 {
            return &[];
        }
        // SAFETY: this part of the room was written in `lend`, and nobody else writes it.
        unsafe { slice::from_raw_parts(at, len) }
    }

    /// The markers stand.
    pub fn is_whole(&self) -> bool {
        let Lent { at, lead, tail } = self.at.expect("a slice is lent");
        let lead = self.around(at.wrapping_sub(lead), lead);
        let tail = self.around(at.wrapping_add(self.before.len()), tail);
        lead.iter().chain(tail).all(|byte| *byte == MARKER)
    }

    /// Alters a byte of the room, this far from the slice's start, as a faulty function would; false if it is not in the room.
    pub fn damage(&mut self, at: isize) -> bool {
        let lent = self.at.expect("a slice is lent");
        let (lead, tail) = (lent.lead as isize, (self.before.len() + lent.tail) as isize);
        if at < -lead || at >= tail {
            return false;
        }
        // SAFETY: it is one of the bytes that were written in `lend`.
        unsafe { *lent.at.offset(at) ^= 0x10 };
        true
    }
}

/// Two pages between two that cannot be touched.
struct Fence(*mut u8);

impl Fence {
    fn new() -> Self {
        let (read_write, private_anonymous) = (3, 0x22);
        // SAFETY: new memory, of which the first and the last page are taken away.
        unsafe {
            let all =
                mmap(ptr::null_mut(), FENCED + 2 * PAGE, read_write, private_anonymous, -1, 0);
            assert!(all as isize != -1, "no memory");
            for page in [0, FENCED + PAGE] {
                assert_eq!(mprotect(all.byte_add(page), PAGE, 0), 0, "no fence");
            }
            Self(all.cast::<u8>().add(PAGE))
        }
    }

    fn within(&self, at: usize) -> *mut u8 {
        // SAFETY: callers stay within the two pages.
        unsafe { self.0.add(at) }
    }
}

// SAFETY: as the C library of x86-64 Linux declares them.
unsafe extern "C" {
    fn mmap(
        at: *mut c_void,
        len: usize,
        protection: c_int,
        flags: c_int,
        file: c_int,
        offset: i64,
    ) -> *mut c_void;
    fn mprotect(at: *mut c_void, len: usize, protection: c_int) -> c_int;
}
