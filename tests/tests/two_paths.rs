//! REBUILD and REGENERATE by the plain path and by the faster one: around the 512 bytes of a piece, and
//! around each number of sources that is taken in another way.

extern crate shelf_tests as second;

#[path = "../../second/tests/common/mod.rs"]
mod common;

use common::Rig;
use second::{StepCall, SENSE_SIZE};

const DRIVES: u32 = 32;
const BLOCKS: u32 = 310;
/// Blocks of four bytes: one piece has 128 of them.
const COUNTS: [u32; 7] = [1, 127, 128, 129, 255, 256, 300];
const SOURCES: [u8; 14] = [1, 2, 4, 5, 7, 8, 9, 11, 12, 13, 16, 17, 31, 255];

/// A shelf with two slots, and no two blocks alike.
fn shelf() -> Vec<u8> {
    let mut image = Rig::shelf(DRIVES, BLOCKS, 4, 2, 256).image;
    let media = image.len() - (DRIVES * BLOCKS * 4) as usize;
    for (word, bytes) in image[media..].chunks_exact_mut(4).enumerate() {
        let bits = (word as u32 + 1).wrapping_mul(0x9E37_79B1);
        bytes.copy_from_slice(&bits.to_be_bytes());
    }
    image
}

/// A list for own block 3: the other drives in turn, at block 0, then at block 1 and so on.
fn list(sources: u8) -> Vec<u8> {
    let mut list = vec![sources, 1, 0, 0, 0, 0, 0, 3];
    for entry in 0..u32::from(sources) {
        let (address, block) = (2 + entry % (DRIVES - 1), entry / (DRIVES - 1));
        list.extend(address.to_be_bytes());
        list.extend(block.to_be_bytes());
    }
    list
}

/// The command to drive 1, with or without Int Data.
fn call(code: u8, count: u32, sources: u8, int: bool) -> StepCall {
    let mut data = list(sources);
    let length = (data.len() as u16).to_be_bytes();
    let [a, b, c, d] = count.to_be_bytes();
    let byte1 = if int { 0x04 } else { 0 };
    if int {
        data.extend((0..4 * count).map(|at| (7 * at + 1) as u8));
    }
    StepCall {
        target: 1,
        cdb: vec![code, byte1, a, b, c, d, 0, length[0], length[1], 0],
        data,
        room: vec![],
        sense: vec![0xAA; SENSE_SIZE],
    }
}

/// Both implementations must agree on the command, and it must be GOOD and change the shelf.
fn made(code: u8, count: u32, sources: u8, int: bool) {
    let (before, mut image) = (shelf(), shelf());
    let number = call(code, count, sources, int).run(&mut image).number;
    let case = format!("{code:X}h of {count} blocks, {sources} sources, Int Data {int}");
    assert!(number == 0 && image != before, "{case}");
}

fn made_with_every_list(code: u8, most: u32) {
    for count in COUNTS.into_iter().filter(|count| *count <= most) {
        for sources in SOURCES {
            made(code, count, sources, false);
            made(code, count, sources, true);
        }
    }
}

#[test]
fn rebuild_agrees_on_either_path() {
    made_with_every_list(0xC3, 300);
}

#[test]
fn regenerate_agrees_on_either_path() {
    made_with_every_list(0xC4, 256);
}
