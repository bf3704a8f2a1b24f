//! The header of an image and the places that follow from it.

use crate::address::Extent;
use crate::bytes::number;
use std::ops::Range;

/// Bytes of the header, and so the offset of the drive table.
pub const HEADER: u64 = 32;
/// Bytes of one entry of the drive table.
pub const ENTRY: u64 = 4;
/// Bytes of the record at the front of a slot.
pub const RECORD: u64 = 16;

/// The five counts of the header.
#[derive(Clone, Copy, PartialEq, Eq, Debug)]
pub struct Geometry {
    /// D
    pub drives: u64,
    /// B, blocks per drive
    pub blocks: u64,
    /// L, bytes per block
    pub block_length: u64,
    /// S
    pub slots: u64,
    /// M, blocks per slot
    pub slot_blocks: u64,
}

impl Geometry {
    /// The geometry of an image whose header and length are as 01 wants them.
    pub fn read(image: &[u8]) -> Option<Geometry> {
        let header = image.get(..HEADER as usize)?;
        let field = |at: usize| number(&header[4 * at..4 * at + 4]);
        let geometry = Geometry {
            drives: field(0),
            blocks: field(1),
            block_length: field(2),
            slots: field(3),
            slot_blocks: field(4),
        };
        // The limits come first: they keep all products below 2^34.
        let valid = geometry.within_limits()
            && field(5) == HEADER
            && field(6) == geometry.slots_at()
            && field(7) == geometry.media_at()
            && image.len() as u64 == geometry.end();
        valid.then_some(geometry)
    }

    fn within_limits(&self) -> bool {
        (2..=32).contains(&self.drives)
            && (1..=65_536).contains(&self.blocks)
            && (4..=4_096).contains(&self.block_length)
            && self.block_length.is_multiple_of(4)
            && self.slots <= 16
            && (1..=256).contains(&self.slot_blocks)
    }

    /// "Slots at 32 + 4D".
    pub fn slots_at(&self) -> u64 {
        HEADER + ENTRY * self.drives
    }

    /// "each 16 + M*L bytes".
    pub fn slot_size(&self) -> u64 {
        RECORD + self.slot_blocks * self.block_length
    }

    /// "Media at 32 + 4D + S(16 + M*L)".
    pub fn media_at(&self) -> u64 {
        self.slots_at() + self.slots * self.slot_size()
    }

    /// "The image ends there, D*B*L bytes on."
    pub fn end(&self) -> u64 {
        self.media_at() + self.drives * self.blocks * self.block_length
    }

    /// Bytes in so many blocks.
    pub fn bytes(&self, blocks: u64) -> u64 {
        blocks * self.block_length
    }

    /// Where the entry of a drive stands.
    pub fn entry(&self, drive: usize) -> Range<usize> {
        range(HEADER + ENTRY * drive as u64, ENTRY)
    }

    /// Where the record of a slot stands.
    pub fn record(&self, slot: usize) -> Range<usize> {
        range(self.slot_at(slot), RECORD)
    }

    /// Where the first blocks of a slot's data stand.
    pub fn slot_data(&self, slot: usize, blocks: u64) -> Range<usize> {
        range(self.slot_at(slot) + RECORD, self.bytes(blocks))
    }

    /// Where the blocks of an extent stand; they do not cross to the next
    /// drive once block + length is at most B.
    pub fn blocks_of(&self, extent: &Extent) -> Range<usize> {
        let first = self.blocks * extent.drive as u64 + extent.block.0;
        range(
            self.media_at() + self.bytes(first),
            self.bytes(extent.length),
        )
    }

    /// Whether block + length is at most B.
    pub fn holds(&self, block: u64, length: u64) -> bool {
        block + length <= self.blocks
    }

    fn slot_at(&self, slot: usize) -> u64 {
        self.slots_at() + self.slot_size() * slot as u64
    }
}

fn range(at: u64, size: u64) -> Range<usize> {
    at as usize..(at + size) as usize
}
