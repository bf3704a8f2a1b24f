//! The record at the front of a slot.

use crate::bytes::{number, number32};
use crate::geometry::Geometry;

/// The kind of a result that XDWRITE retained.
pub const XDWRITE: u8 = 1;
/// The kind of a result that REGENERATE retained.
pub const REGENERATE: u8 = 2;

/// "rank (4 bytes), kind, drive index (1), length in blocks (2), block number
/// (4), four zero bytes".
#[derive(Clone, Copy, PartialEq, Eq, Debug, Default)]
pub struct Record {
    pub rank: u32,
    pub kind: u8,
    pub drive: u8,
    pub length: u16,
    pub block: u32,
    pub zero: u32,
}

impl Record {
    /// The record in the 16 bytes given.
    pub fn read(bytes: &[u8]) -> Record {
        Record {
            rank: number32(&bytes[0..4]),
            kind: bytes[4],
            drive: bytes[5],
            length: number(&bytes[6..8]) as u16,
            block: number32(&bytes[8..12]),
            zero: number32(&bytes[12..16]),
        }
    }

    /// The 16 bytes of the record.
    pub fn bytes(&self) -> [u8; 16] {
        let mut bytes = [0; 16];
        bytes[0..4].copy_from_slice(&self.rank.to_be_bytes());
        bytes[4] = self.kind;
        bytes[5] = self.drive;
        bytes[6..8].copy_from_slice(&self.length.to_be_bytes());
        bytes[8..12].copy_from_slice(&self.block.to_be_bytes());
        bytes[12..16].copy_from_slice(&self.zero.to_be_bytes());
        bytes
    }

    /// "An empty slot's record is all zero."
    pub fn is_empty(&self) -> bool {
        *self == Record::default()
    }

    /// What 01 asks of a used slot, apart from its rank.
    pub fn is_used(&self, geometry: &Geometry) -> bool {
        let length = u64::from(self.length);
        (self.kind == XDWRITE || self.kind == REGENERATE)
            && u64::from(self.drive) < geometry.drives
            && (1..=geometry.slot_blocks).contains(&length)
            && geometry.holds(u64::from(self.block), length)
            && self.zero == 0
    }
}
