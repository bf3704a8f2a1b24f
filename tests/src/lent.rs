//! Buffers between guard bytes.

use std::ptr::null_mut;

/// Guard bytes on each side, at the least.
const GUARD: usize = 64;

/// The guard byte at a place: they differ, so that bytes which are moved are seen too.
fn guard(place: usize) -> u8 {
    0xA5 ^ (place % 128) as u8
}

/// Bytes that are lent to a call.
pub struct Lent {
    name: &'static str,
    bytes: Vec<u8>,
    start: usize,
    end: usize,
}

impl Lent {
    /// A copy of the bytes, between guard bytes. Buffers of different lengths stand at
    /// different alignments.
    pub fn new(name: &'static str, bytes: &[u8]) -> Lent {
        let start = GUARD + bytes.len() % 16;
        let end = start + bytes.len();
        let mut all: Vec<u8> = (0..start).map(guard).collect();
        all.extend_from_slice(bytes);
        all.extend((end..end + GUARD).map(guard));
        Lent {
            name,
            bytes: all,
            start,
            end,
        }
    }

    pub fn len(&self) -> usize {
        self.end - self.start
    }

    /// Where the bytes stand.
    pub fn place(&mut self) -> *mut u8 {
        self.bytes[self.start..].as_mut_ptr()
    }

    /// Where the bytes stand, or NULL if there are none.
    pub fn place_or_null(&mut self) -> *mut u8 {
        match self.len() {
            0 => null_mut(),
            _ => self.place(),
        }
    }

    /// The bytes once the call is over; nothing outside them was written.
    pub fn back(self) -> Vec<u8> {
        for place in (0..self.start).chain(self.end..self.bytes.len()) {
            assert!(
                self.bytes[place] == guard(place),
                "a byte outside the {} was written, {} from its start",
                self.name,
                place as isize - self.start as isize
            );
        }
        self.bytes[self.start..self.end].to_vec()
    }

    /// Neither the bytes nor anything outside them was written.
    pub fn back_unchanged(self, bytes: &[u8]) {
        let name = self.name;
        assert!(self.back() == bytes, "the {name} was written");
    }
}
