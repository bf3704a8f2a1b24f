//! The row program.

use crate::address::{Block, Extent};
use crate::bytes::xor_into;
use crate::geometry::Geometry;
use crate::shelf::Shelf;
use std::fmt::Write;

/// The longest input the row program reads.
pub const INPUT_LIMIT: usize = 49_152;

/// What the row program prints for its input: "at most 49,152 bytes", and a
/// longer input is `too large` whether it is a shelf or not.
pub fn rows(input: &[u8]) -> String {
    if input.len() > INPUT_LIMIT {
        return "too large\n".to_string();
    }
    listing(input)
}

/// The listing of an image of any length, each line with its newline.
pub fn listing(image: &[u8]) -> String {
    let Some(shelf) = Shelf::read(image) else {
        return "not a shelf\n".to_string();
    };
    let geometry = &shelf.geometry;
    let mut lines = String::new();
    let mut open: u64 = 0;
    for row in 0..geometry.blocks {
        let sum = row_sum(geometry, image, row);
        if sum.iter().any(|byte| *byte != 0) {
            open += 1;
            let _ = writeln!(lines, "row {row} sum {}", hex(&sum));
        }
    }
    let (drives, blocks, length) = (geometry.drives, geometry.blocks, geometry.block_length);
    format!("drives {drives} blocks {blocks} length {length} open {open}\n{lines}")
}

/// The XOR of "a block on all drives, failed ones too".
fn row_sum(geometry: &Geometry, image: &[u8], row: u64) -> Vec<u8> {
    let mut sum = vec![0; geometry.block_length as usize];
    for drive in 0..geometry.drives as usize {
        let block = Extent {
            drive,
            block: Block(row),
            length: 1,
        };
        xor_into(&mut sum, &image[geometry.blocks_of(&block)]);
    }
    sum
}

/// Two lower-case digits for each byte.
pub fn hex(bytes: &[u8]) -> String {
    const DIGITS: &[u8; 16] = b"0123456789abcdef";
    let mut text = String::with_capacity(2 * bytes.len());
    for byte in bytes {
        text.push(char::from(DIGITS[usize::from(byte >> 4)]));
        text.push(char::from(DIGITS[usize::from(byte & 15)]));
    }
    text
}
