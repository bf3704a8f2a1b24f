//! The row program.

mod common;

use common::{hex, Rig};
use second::{listing, rows};

#[test]
fn the_bench_has_no_open_row() {
    let text = "drives 3 blocks 2 length 4 open 0\n";
    assert_eq!(rows(&Rig::bench().image), text);
}

#[test]
fn every_row_may_be_open() {
    let rig = Rig::bench().with(68, "00000000 000000FF");
    let text = "drives 3 blocks 2 length 4 open 2\nrow 0 sum 0a0b0c0d\nrow 1 sum 000000ff\n";
    assert_eq!(rows(&rig.image), text);
}

#[test]
fn rows_come_in_ascending_order_and_closed_ones_are_left_out() {
    let mut rig = Rig::shelf(2, 12, 4, 0, 1);
    for row in [11, 2, 9] {
        rig.image[40 + 4 * row] = 0x10 + row as u8;
    }
    let text = "drives 2 blocks 12 length 4 open 3\n\
                row 2 sum 12000000\nrow 9 sum 19000000\nrow 11 sum 1b000000\n";
    assert_eq!(rows(&rig.image), text);
}

#[test]
fn all_32_drives_are_summed() {
    let mut rig = Rig::shelf(32, 1, 8, 0, 1);
    for drive in 0..32 {
        rig.image[160 + 8 * drive + drive % 8] |= 1 << (drive / 8);
    }
    let text = "drives 32 blocks 1 length 8 open 1\nrow 0 sum 0f0f0f0f0f0f0f0f\n";
    assert_eq!(rows(&rig.image), text);
}

#[test]
fn a_block_of_4096_bytes_has_8192_digits() {
    let mut rig = Rig::shelf(2, 2, 4_096, 0, 1);
    let last = rig.image.len() - 1;
    rig.image[last] = 0xAB;
    let sum = "00".repeat(4_095) + "ab";
    let text = format!("drives 2 blocks 2 length 4096 open 1\nrow 1 sum {sum}\n");
    assert_eq!(rows(&rig.image), text);
}

#[test]
fn the_longest_listing_is_that_of_6139_open_rows() {
    let mut rig = Rig::shelf(2, 6_139, 4, 0, 1);
    for row in 0..6_139 {
        rig.image[40 + 4 * row + 3] = 1;
    }
    assert_eq!(rig.image.len(), 49_152);
    let text = rows(&rig.image);
    assert_eq!(text.len(), 133_988);
    let mut lines = text.lines();
    let head = "drives 2 blocks 6139 length 4 open 6139";
    assert_eq!(lines.next(), Some(head));
    for row in 0..6_139 {
        assert_eq!(
            lines.next(),
            Some(format!("row {row} sum 00000001").as_str())
        );
    }
    assert_eq!(lines.next(), None);
}

#[test]
fn one_byte_above_the_limit_is_too_large() {
    let mut image = Rig::shelf(2, 6_139, 4, 0, 1).image;
    assert_eq!(rows(&image), "drives 2 blocks 6139 length 4 open 0\n");
    image.push(0);
    assert_eq!(rows(&image), "too large\n");
}

#[test]
fn a_larger_shelf_is_too_large_though_it_is_valid() {
    let image = Rig::shelf(2, 6_140, 4, 0, 1).image;
    assert_eq!(image.len(), 49_160);
    assert_eq!(rows(&image), "too large\n");
    assert_eq!(listing(&image), "drives 2 blocks 6140 length 4 open 0\n");
}

#[test]
fn what_is_no_shelf_is_said_to_be_none() {
    assert_eq!(rows(&[]), "not a shelf\n");
    assert_eq!(rows(&Rig::bench().image[..91]), "not a shelf\n");
    assert_eq!(rows(&hex("00000003")), "not a shelf\n");
    assert_eq!(rows(&vec![0xFF; 49_152]), "not a shelf\n");
    assert_eq!(rows(&vec![0xFF; 49_153]), "too large\n");
}

#[test]
fn a_failed_drive_is_counted_and_summed() {
    let mut rig = Rig::bench();
    rig.mark(3, 1);
    let text = "drives 3 blocks 2 length 4 open 0\n";
    assert_eq!(rows(&rig.image), text);
    rig.patch(84, "0B090F08");
    let text = "drives 3 blocks 2 length 4 open 1\nrow 0 sum 00000001\n";
    assert_eq!(rows(&rig.image), text);
}

#[test]
fn slots_are_no_part_of_a_row() {
    let rig = Rig::bench().with(60, "FFFFFFFFFFFFFFFF");
    let text = "drives 3 blocks 2 length 4 open 0\n";
    assert_eq!(rows(&rig.image), text);
}
