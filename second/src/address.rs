//! Drive addresses and block numbers, kept apart because both are four bytes
//! wide in a source entry.

/// The address of a drive; one above FFFFFFh is in no drive table.
#[derive(Clone, Copy, PartialEq, Eq, Debug)]
pub struct Address(pub u32);

/// The number of a block on a drive.
#[derive(Clone, Copy, PartialEq, Eq, Debug)]
pub struct Block(pub u64);

/// A run of blocks on the drive with the given index.
#[derive(Clone, Copy, PartialEq, Eq, Debug)]
pub struct Extent {
    pub drive: usize,
    pub block: Block,
    pub length: u64,
}
