//! Memory to lend: between pages that can be neither read nor written, so that a call which reads or writes outside of it is stopped.
use std::ffi::{c_int, c_void};
use std::ops::Range;
use std::{ptr, slice};

extern "C" {
    fn mmap(at: *mut c_void, size: usize, protection: c_int, flags: c_int, file: c_int, from: i64) -> *mut c_void;
    fn mprotect(at: *mut c_void, size: usize, protection: c_int) -> c_int;
    fn munmap(at: *mut c_void, size: usize) -> c_int;
}

const PAGE: usize = 4096;
const NONE: c_int = 0;
const READ_AND_WRITE: c_int = 3;
const PRIVATE_AND_ANONYMOUS: c_int = 0x22;
/// What stands on the pages beside the lent bytes.
const GUARD: u8 = 0xa5;

/// Which of the two unreadable pages the lent bytes touch.
#[derive(Debug, Clone, Copy, PartialEq)]
pub enum Side {
    Start,
    End,
}

/// Room for some bytes, of which a part is lent.
pub struct Lent {
    map: *mut u8,
    room: usize,
    side: Side,
    size: usize,
}

impl Lent {
    /// Lends nothing yet.
    pub fn new(room: usize, side: Side) -> Lent {
        let room = room.max(1).div_ceil(PAGE) * PAGE;
        // SAFETY: a new mapping overlaps nothing, and the pages that are opened are inside of it.
        let map = unsafe {
            let map = mmap(ptr::null_mut(), room + 2 * PAGE, NONE, PRIVATE_AND_ANONYMOUS, -1, 0).cast::<u8>();
            assert_ne!(map as isize, -1);
            assert_eq!(mprotect(map.add(PAGE).cast(), room, READ_AND_WRITE), 0);
            map
        };
        let mut lent = Lent { map, room, side, size: 0 };
        lent.opened_mut().fill(GUARD);
        lent
    }

    fn opened(&self) -> &[u8] {
        // SAFETY: these pages are this value's own, and can be read.
        unsafe { slice::from_raw_parts(self.map.add(PAGE), self.room) }
    }

    fn opened_mut(&mut self) -> &mut [u8] {
        // SAFETY: these pages are this value's own, and can be read and written.
        unsafe { slice::from_raw_parts_mut(self.map.add(PAGE), self.room) }
    }

    fn range(&self) -> Range<usize> {
        match self.side {
            Side::Start => 0..self.size,
            Side::End => self.room - self.size..self.room,
        }
    }

    /// The bytes that are lent.
    pub fn bytes(&self) -> &[u8] {
        &self.opened()[self.range()]
    }

    /// The same, to be written.
    pub fn bytes_mut(&mut self) -> &mut [u8] {
        let range = self.range();
        &mut self.opened_mut()[range]
    }

    /// Lends as many bytes, all of one value.
    pub fn lend(&mut self, size: usize, value: u8) -> &mut [u8] {
        self.opened_mut().fill(GUARD);
        self.size = size;
        self.bytes_mut().fill(value);
        self.bytes_mut()
    }

    /// Lends these bytes.
    pub fn lend_copy(&mut self, bytes: &[u8]) -> &mut [u8] {
        self.lend(bytes.len(), 0).copy_from_slice(bytes);
        self.bytes_mut()
    }

    /// Whether the bytes beside those that are lent are as they were.
    pub fn is_guarded(&self) -> bool {
        let (range, opened) = (self.range(), self.opened());
        opened[..range.start].iter().chain(&opened[range.end..]).all(|byte| *byte == GUARD)
    }
}

impl Drop for Lent {
    fn drop(&mut self) {
        // SAFETY: the mapping is this value's own.
        unsafe { munmap(self.map.cast(), self.room + 2 * PAGE) };
    }
}
