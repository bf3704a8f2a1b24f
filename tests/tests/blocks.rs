//! `shelf_xor` and its form with four operands: each call must agree with `second`, and the commands
//! leave what they leave.

use second::{Call, Outcome, Random, StepCall};
use shelf_tests::{through_c, xor, xor_four, Empty};

/// Blocks of these lengths.
fn one(random: &mut Random, into: u64, from: u64) {
    let from = random.bytes(from);
    xor(&mut random.bytes(into), &from);
}

fn four(random: &mut Random, into: u64, operands: [u64; 4]) {
    let operands = operands.map(|length| random.bytes(length));
    let operands = operands.each_ref().map(Vec::as_slice);
    xor_four(&mut random.bytes(into), operands);
}

#[test]
fn every_block_length() {
    let mut random = Random::new(301);
    for length in (4..=4096).step_by(4).chain([0, 1, 3, 65_535]) {
        one(&mut random, length, length);
        four(&mut random, length, [length; 4]);
    }
}

#[test]
fn every_pair_of_short_lengths() {
    let mut random = Random::new(302);
    for into in 0..=80 {
        (0..=80).for_each(|from| one(&mut random, into, from));
    }
}

#[test]
fn five_short_lengths() {
    const LENGTHS: [u64; 8] = [0, 1, 3, 4, 31, 32, 37, 64];
    let mut random = Random::new(303);
    for n in 0..LENGTHS.len().pow(5) {
        let [into, a, b, c, d] = [0, 3, 6, 9, 12].map(|shift| LENGTHS[n >> shift & 7]);
        four(&mut random, into, [a, b, c, d]);
    }
}

/// Mostly the length of a short block, and at times a long one or none.
fn length(random: &mut Random) -> u64 {
    let most = random.number(&[0, 70, 70, 600, 600, 5_000, 70_000]);
    random.between(0, most)
}

#[test]
fn random_lengths() {
    let mut random = Random::new(304);
    for _ in 0..4_000 {
        let [into, a, b, c, d] = [(); 5].map(|()| length(&mut random));
        one(&mut random, into, a);
        four(&mut random, into, [a, b, c, d]);
    }
}

const LENGTH: usize = 512;
const DRIVES: usize = 6;

/// A shelf of six drives with one block each, and no slot; drive d has the address d + 1.
fn shelf(blocks: &[Vec<u8>; DRIVES]) -> Vec<u8> {
    let media = 32 + 4 * DRIVES;
    let fields = [DRIVES, 1, LENGTH, 0, 1, 32, media, media];
    let numbers = fields.into_iter().chain(1..=DRIVES);
    let mut image: Vec<u8> = numbers
        .flat_map(|number| (number as u32).to_be_bytes())
        .collect();
    blocks.iter().for_each(|block| image.extend(block));
    image
}

/// The block of each drive after a command to the first that must be GOOD.
fn after(blocks: &[Vec<u8>; DRIVES], cdb: &[u8], data: &[u8]) -> Vec<Vec<u8>> {
    let mut image = shelf(blocks);
    let call = Call::Step(StepCall {
        target: 1,
        cdb: cdb.to_vec(),
        data: data.to_vec(),
        room: vec![],
        sense: vec![0; 37],
    });
    match through_c(&mut image, &call, Empty::Place) {
        Outcome::Step(outcome) => assert_eq!(outcome.number, 0, "{cdb:02X?}"),
        _ => panic!("a step has another outcome"),
    }
    let media = image[32 + 4 * DRIVES..].chunks(LENGTH);
    media.map(<[u8]>::to_vec).collect()
}

#[test]
fn commands_leave_what_the_leaf_leaves() {
    let mut random = Random::new(305);
    let blocks = [(); DRIVES].map(|()| random.bytes(LENGTH as u64));
    let data = random.bytes(LENGTH as u64);
    let xored = |into: &[u8], from: &[u8]| {
        let mut block = into.to_vec();
        xor(&mut block, from);
        block
    };
    let xpwrite = [0xC1, 0, 0, 0, 0, 0, 0, 0, 1, 0];
    assert!(after(&blocks, &xpwrite, &data)[0] == xored(&blocks[0], &data));

    let to_drive_2 = [0xC0, 0, 0, 0, 0, 0, 0, 1, 0, 0, 2, 0, 0, 0, 0, 0];
    let result = xored(&blocks[0], &data);
    assert!(after(&blocks, &to_drive_2, &data)[1] == xored(&blocks[1], &result));

    for sources in [1, 2, 3, 4, 5] {
        let mut list = vec![sources as u8, 1, 0, 0, 0, 0, 0, 0];
        (2..=sources + 1).for_each(|address| list.extend([0, 0, 0, address as u8, 0, 0, 0, 0]));
        let rebuild = [0xC3, 0, 0, 0, 0, 1, 0, 0, list.len() as u8, 0];
        let others = blocks[1..=sources].iter();
        let expected = others.fold(vec![0; LENGTH], |sum, block| xored(&sum, block));
        assert!(after(&blocks, &rebuild, &list)[0] == expected, "{sources}");
    }
}
