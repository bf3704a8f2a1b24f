//! Random images: most are shelves, some are nearly shelves, some are hostile.

use crate::bytes::xor_into;
use crate::geometry::{Geometry, HEADER};
use crate::random::Random;
use crate::random_damage::{damage, hostile};
use crate::record::Record;

/// An image of any sort.
pub fn random_image(random: &mut Random) -> Vec<u8> {
    match random.below(16) {
        0 => hostile(random),
        1 | 2 => {
            let image = random_shelf(random);
            damage(random, image)
        }
        _ => random_shelf(random),
    }
}

/// A valid image: mostly below 2 KB, sometimes up to 16 KB, rarely up to 64 KB.
pub fn random_shelf(random: &mut Random) -> Vec<u8> {
    let limit = match random.below(256) {
        0 => 65_536,
        1..=15 => 16_384,
        _ => 2_048,
    };
    let geometry = random_geometry(random, limit);
    build(random, &geometry)
}

/// A geometry whose image is at most `limit` bytes long.
fn random_geometry(random: &mut Random, limit: u64) -> Geometry {
    for _ in 0..64 {
        let geometry = draw_geometry(random, limit);
        if geometry.end() <= limit {
            return geometry;
        }
    }
    Geometry {
        drives: 3,
        blocks: 2,
        block_length: 4,
        slots: 1,
        slot_blocks: 2,
    }
}

fn draw_geometry(random: &mut Random, limit: u64) -> Geometry {
    let rare = random.below(8);
    Geometry {
        drives: random.between(2, if rare == 0 { 32 } else { 5 }),
        blocks: random.between(1, if rare == 1 { limit / 16 } else { 8 }),
        block_length: 4 * random.between(1, if rare == 2 { 1_024 } else { 4 }),
        slots: random.between(0, if rare == 3 { 16 } else { 5 }),
        slot_blocks: random.between(1, if rare == 4 { 256 } else { 4 }),
    }
}

/// An image with this geometry; it is valid if the five counts are.
pub fn build(random: &mut Random, geometry: &Geometry) -> Vec<u8> {
    let mut image = Vec::with_capacity(geometry.end() as usize);
    put_header(&mut image, geometry);
    put_drives(random, &mut image, geometry);
    let records = random_records(random, geometry);
    for record in records {
        image.extend_from_slice(&record.bytes());
        let data = geometry.bytes(geometry.slot_blocks);
        image.extend_from_slice(&random.bytes(data));
    }
    image.extend_from_slice(&random_media(random, geometry));
    image
}

/// The eight fields of the header.
pub fn put_header(image: &mut Vec<u8>, geometry: &Geometry) {
    let fields = [
        geometry.drives,
        geometry.blocks,
        geometry.block_length,
        geometry.slots,
        geometry.slot_blocks,
        HEADER,
        geometry.slots_at(),
        geometry.media_at(),
    ];
    for field in fields {
        image.extend_from_slice(&(field as u32).to_be_bytes());
    }
}

/// The drive table: addresses that differ, and some drives failed.
pub fn put_drives(random: &mut Random, image: &mut Vec<u8>, geometry: &Geometry) {
    let wide = random.one_in(3);
    let failing = random.one_in(2);
    let mut addresses: Vec<u32> = Vec::new();
    for _ in 0..geometry.drives {
        let mut address = random_address(random, wide);
        while addresses.contains(&address) {
            address = random_address(random, wide);
        }
        addresses.push(address);
        let failed = failing && random.one_in(4);
        image.extend_from_slice(&(u32::from(failed) << 24 | address).to_be_bytes());
    }
}

fn random_address(random: &mut Random, wide: bool) -> u32 {
    match random.below(16) {
        0 => 0,
        1 => 0xFF_FFFF,
        _ if wide => random.below(1 << 24) as u32,
        _ => random.below(64) as u32,
    }
}

/// The records: holes between used slots, ranks in any order.
fn random_records(random: &mut Random, geometry: &Geometry) -> Vec<Record> {
    let longest = geometry.slot_blocks.min(geometry.blocks);
    // How many of four slots are used; all four gives a shelf that is BUSY.
    let share = random.below(5);
    let used: Vec<bool> = (0..geometry.slots)
        .map(|_| longest > 0 && random.below(4) < share)
        .collect();
    let count = used.iter().filter(|used| **used).count() as u32;
    let mut ranks: Vec<u32> = (1..=count).collect();
    random.shuffle(&mut ranks);
    let mut ranks = ranks.into_iter();
    used.into_iter()
        .map(|used| match used.then(|| ranks.next()).flatten() {
            Some(rank) => random_record(random, geometry, longest, rank),
            None => Record::default(),
        })
        .collect()
}

fn random_record(random: &mut Random, geometry: &Geometry, longest: u64, rank: u32) -> Record {
    let length = random.between(1, longest);
    // Often the first drive and block, so that results meet on one block.
    let drives = if random.one_in(3) { 1 } else { geometry.drives };
    let last = if random.one_in(2) {
        0
    } else {
        geometry.blocks - length
    };
    Record {
        rank,
        kind: random.between(1, 2) as u8,
        drive: random.below(drives) as u8,
        length: length as u16,
        block: random.between(0, last) as u32,
        zero: 0,
    }
}

/// The media: random, or with all rows closed, or closed but for one byte.
fn random_media(random: &mut Random, geometry: &Geometry) -> Vec<u8> {
    let drive_size = geometry.bytes(geometry.blocks) as usize;
    let mut media = random.bytes(geometry.drives * drive_size as u64);
    let sort = random.below(4);
    if sort > 1 && !media.is_empty() {
        let (last, others) = media.split_at_mut(drive_size);
        last.fill(0);
        for other in others.chunks(drive_size) {
            xor_into(last, other);
        }
        if sort > 2 {
            last[random.below(drive_size as u64) as usize] ^= 1;
        }
    }
    media
}
