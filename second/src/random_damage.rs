//! Images that are not shelves, or only just.

use crate::geometry::Geometry;
use crate::random::Random;
use crate::random_shelf::{build, put_drives, put_header};

/// Numbers that sit at the edges of fields and of products.
const EDGES: [u64; 14] = [
    0,
    1,
    2,
    3,
    4,
    16,
    17,
    32,
    33,
    256,
    257,
    65_536,
    0x8000_0000,
    0xFFFF_FFFF,
];

/// Changes one thing in a valid image; now and then it stays valid.
pub fn damage(random: &mut Random, mut image: Vec<u8>) -> Vec<u8> {
    let Some(geometry) = Geometry::read(&image) else {
        return image;
    };
    match random.below(10) {
        0 => {
            let gone = random.between(1, 8) as usize;
            image.truncate(image.len().saturating_sub(gone));
        }
        1 => {
            let more = random.between(1, 8);
            image.extend_from_slice(&random.bytes(more));
        }
        2 => {
            let length = random.below(geometry.slots_at() + 1);
            image.truncate(length as usize);
        }
        3 | 4 => damage_header(random, &mut image),
        5 | 6 => damage_drives(random, &mut image, &geometry),
        _ => damage_record(random, &mut image, &geometry),
    }
    image
}

fn damage_header(random: &mut Random, image: &mut [u8]) {
    let at = 4 * random.below(8) as usize;
    let mut old = [0; 4];
    old.copy_from_slice(&image[at..at + 4]);
    let old = u32::from_be_bytes(old);
    let new = match random.below(3) {
        0 => old.wrapping_add(1),
        1 => old.wrapping_sub(1),
        _ => random.number(&EDGES) as u32,
    };
    image[at..at + 4].copy_from_slice(&new.to_be_bytes());
}

/// A state that is none, or two drives with one address.
fn damage_drives(random: &mut Random, image: &mut [u8], geometry: &Geometry) {
    let one = geometry.entry(random.below(geometry.drives) as usize);
    let other = geometry.entry(random.below(geometry.drives) as usize);
    if random.one_in(2) {
        image[one.start] = random.between(2, 255) as u8;
    } else {
        image.copy_within(one.start + 1..one.end, other.start + 1);
    }
}

/// One field of one record, at a value that is just wrong or far off.
fn damage_record(random: &mut Random, image: &mut [u8], geometry: &Geometry) {
    if geometry.slots == 0 {
        return;
    }
    let slot = random.below(geometry.slots) as usize;
    let record = &mut image[geometry.record(slot)];
    match random.below(8) {
        0 => record[4] = random.number(&[0, 1, 2, 3, 255]) as u8,
        1 => record[5] = random.number(&[0, geometry.drives - 1, geometry.drives, 255]) as u8,
        2 => {
            let length = random.number(&[0, 1, geometry.slot_blocks, geometry.slot_blocks + 1]);
            record[6..8].copy_from_slice(&(length as u16).to_be_bytes());
        }
        3 => {
            let block = random.number(&[0, geometry.blocks - 1, geometry.blocks, 0xFFFF_FFFF]);
            record[8..12].copy_from_slice(&(block as u32).to_be_bytes());
        }
        4 => record[12 + random.below(4) as usize] = 1,
        5 => record[random.below(16) as usize] ^= 1 << random.below(8),
        _ => {
            let rank = random.number(&[0, 1, 2, 3, geometry.slots, 0xFFFF_FFFF]);
            record[0..4].copy_from_slice(&(rank as u32).to_be_bytes());
        }
    }
}

/// An image that was never a shelf.
pub fn hostile(random: &mut Random) -> Vec<u8> {
    match random.below(6) {
        0 => Vec::new(),
        1 => {
            let length = random.below(200);
            random.bytes(length)
        }
        2 => edge_header(random),
        3 => wrapping(random),
        _ => beyond_a_limit(random),
    }
}

/// A header of edge numbers, with some bytes after it.
fn edge_header(random: &mut Random) -> Vec<u8> {
    let mut image = Vec::new();
    for _ in 0..8 {
        let field = random.number(&EDGES) as u32;
        image.extend_from_slice(&field.to_be_bytes());
    }
    let more = random.below(200);
    image.extend_from_slice(&random.bytes(more));
    image
}

/// An image without media whose D*B*L is a multiple of 2^32, so that 32-bit
/// arithmetic finds nothing missing.
fn wrapping(random: &mut Random) -> Vec<u8> {
    let (drives, block_length) = random
        .pick(&[(32, 2_048), (32, 4_096), (16, 4_096)])
        .unwrap_or((32, 2_048));
    let geometry = Geometry {
        drives,
        blocks: 65_536,
        block_length,
        slots: 0,
        slot_blocks: random.between(1, 256),
    };
    let mut image = Vec::new();
    put_header(&mut image, &geometry);
    put_drives(random, &mut image, &geometry);
    image
}

/// An image that fits its own header, which has one count beyond its limit.
fn beyond_a_limit(random: &mut Random) -> Vec<u8> {
    let mut geometry = Geometry {
        drives: random.between(2, 3),
        blocks: random.between(1, 3),
        block_length: 4,
        slots: random.below(3),
        slot_blocks: random.between(1, 3),
    };
    match random.below(9) {
        0 => geometry.drives = random.below(2),
        1 => geometry.drives = 33,
        2 => geometry.blocks = 0,
        3 => geometry.block_length = 0,
        4 => geometry.block_length = random.number(&[1, 2, 3, 5, 6, 10]),
        5 => geometry.block_length = 4_100,
        6 => geometry.slots = 17,
        7 => geometry.slot_blocks = 0,
        _ => geometry.slot_blocks = 257,
    }
    build(random, &geometry)
}
