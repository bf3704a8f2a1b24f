//! The XOR of blocks by itself.

mod common;

use common::hex;
use second::{xor, xor_four};

/// What is left of a block.
fn xored(into: &str, from: &str) -> Vec<u8> {
    let mut block = hex(into);
    xor(&mut block, &hex(from));
    block
}

fn four(into: &str, operands: [&str; 4]) -> Vec<u8> {
    let mut block = hex(into);
    let operands = operands.map(hex);
    xor_four(&mut block, operands.each_ref().map(Vec::as_slice));
    block
}

#[test]
fn blocks_of_one_length() {
    // the data of C1, and what it leaves to the secondary
    assert_eq!(xored("FF00FF00", "0A0B0C0D"), hex("F50BF30D"));
    assert_eq!(xored("0B090F09", "F50BF30D"), hex("FE02FC04"));
    // C7: two sources
    assert_eq!(xored("01020304", "0B090F09"), hex("0A0B0C0D"));
}

#[test]
fn as_many_bytes_as_both_have() {
    assert_eq!(xored("0F3355", "FF0F"), hex("F03C55"));
    assert_eq!(xored("0F3355", "10204080"), hex("1F1315"));
    assert_eq!(xored("0F3355", ""), hex("0F3355"));
    assert_eq!(xored("", "0F3355"), hex(""));
}

#[test]
fn four_at_once() {
    let operands = ["01020304", "0B090F09", "F50BF30D", "12345678"];
    assert_eq!(four("00FF00FF", operands), hex("EDCBA987"));
}

#[test]
fn as_many_bytes_as_all_have() {
    let operands = ["010204", "10204080", "050607", "FF0F"];
    assert_eq!(four("0F3355", operands), hex("E41855"));
    assert_eq!(four("0F", operands), hex("E4"));
    for empty in 0..4 {
        let mut operands = operands;
        operands[empty] = "";
        assert_eq!(four("0F3355", operands), hex("0F3355"));
    }
}
