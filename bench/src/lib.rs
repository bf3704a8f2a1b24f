//! A shelf to measure on, and commands to it.

pub mod isal;

use shelf_tests::c::shelf_step;

/// The offset of the media on a shelf of so many drives and slots.
pub fn media_at(drives: usize, length: usize, slots: usize, most: usize) -> usize {
    32 + 4 * drives + slots * (16 + most * length)
}

/// Present drives with addresses 1 to D, empty slots and media of zeros.
pub fn shelf(drives: usize, blocks: usize, length: usize, slots: usize, most: usize) -> Vec<u8> {
    let (slots_at, media_at) = (32 + 4 * drives, media_at(drives, length, slots, most));
    let mut image = vec![0; media_at + drives * blocks * length];
    let fields = [drives, blocks, length, slots, most, 32, slots_at, media_at];
    for (place, number) in fields.into_iter().chain(1..=drives).enumerate() {
        image[4 * place..][..4].copy_from_slice(&(number as u32).to_be_bytes());
    }
    image
}

/// The CDB of a REBUILD (C3h) or REGENERATE (C4h) of so many blocks.
pub fn listed(code: u8, blocks: usize, list: &[u8]) -> [u8; 10] {
    let blocks = (blocks as u32).to_be_bytes();
    let list = (list.len() as u16).to_be_bytes();
    let [a, b, c, d] = blocks;
    [code, 0, a, b, c, d, 0, list[0], list[1], 0]
}

/// A list of sources, all at block 0, for own block 0.
pub fn list(sources: impl ExactSizeIterator<Item = u8>) -> Vec<u8> {
    let mut list = vec![sources.len() as u8, 1, 0, 0, 0, 0, 0, 0];
    list.extend(sources.flat_map(|address| [0, 0, 0, address, 0, 0, 0, 0]));
    list
}

/// Sends a command that must be GOOD.
pub fn send(image: &mut [u8], target: u32, cdb: &[u8], data: &[u8], room: &mut [u8]) {
    let mut sense = [0; 37];
    let mut count = 0;
    // SAFETY: each pointer and length are those of one buffer, and no two share a byte.
    let answer = unsafe {
        shelf_step(
            image.as_mut_ptr(),
            image.len(),
            target,
            cdb.as_ptr(),
            cdb.len(),
            data.as_ptr(),
            data.len(),
            room.as_mut_ptr(),
            room.len(),
            sense.as_mut_ptr(),
            sense.len(),
            &mut count,
        )
    };
    assert_eq!(answer, 0, "{cdb:02X?} is not GOOD: {sense:02X?}");
}
