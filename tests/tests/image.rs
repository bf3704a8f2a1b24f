//! Images made by the words of `include/shelf.h` alone, sent to the library: it takes
//! those that are as the words say, and no other.
//!
//! Nothing here knows an image but by that text, so that a driver writer needs no more.

use second::{Call, Outcome, StepCall};
use shelf_tests::{through_c, Empty};

const HEADER: &str = include_str!("../../include/shelf.h");
const GOOD: u32 = 0;
const BAD_IMAGE: u32 = 257;

/// What a new shelf is made from: D, B, L, S and M.
type Counts = [u32; 5];

/// "A new shelf is its header, its drive table, and zeros"; drive d has the address d + 1.
fn new_shelf(counts: Counts) -> Vec<u8> {
    let [d, b, l, s, m] = counts;
    let slots = 32 + 4 * d;
    let media = 32 + 4 * d + s * (16 + m * l);
    let mut image = Vec::new();
    for number in [d, b, l, s, m, 32, slots, media] {
        image.extend(number.to_be_bytes());
    }
    for address in 1..=d {
        image.extend([0, 0, 0, address as u8]);
    }
    image.resize((media + d * b * l) as usize, 0);
    image
}

/// Sends a command for one block of the drive with the address; gives the answer and what
/// it hands out.
fn send(image: &mut [u8], code: u8, address: u32, block: u8) -> (u32, Vec<u8>) {
    let call = Call::Step(StepCall {
        target: address,
        cdb: vec![code, 0, 0, 0, 0, block, 0, 0, 1, 0],
        data: vec![],
        room: vec![0; 4096],
        sense: vec![0; 37],
    });
    let Outcome::Step(outcome) = through_c(image, &call, Empty::Null) else {
        panic!("a step ends as a step")
    };
    let count = outcome.count.unwrap_or(0) as usize;
    (outcome.number, outcome.room[..count].to_vec())
}

/// The answer to a READ of the drive with address 1.
fn read(image: &[u8]) -> u32 {
    send(&mut image.to_vec(), 0x28, 1, 0).0
}

/// The image with bytes written into it.
fn with(image: &[u8], at: usize, bytes: &[u8]) -> Vec<u8> {
    let mut image = image.to_vec();
    image[at..at + bytes.len()].copy_from_slice(bytes);
    image
}

/// Three drives of two blocks of 8 bytes, and two slots of three blocks.
const SMALL: Counts = [3, 2, 8, 2, 3];
const SLOTS: usize = 32 + 4 * 3;
const SLOT: usize = 16 + 3 * 8;
const MEDIA: usize = SLOTS + 2 * SLOT;

#[test]
fn a_new_shelf_is_valid() {
    for counts in [SMALL, [2, 1, 4, 0, 1], [32, 3, 512, 16, 256]] {
        assert_eq!(read(&new_shelf(counts)), GOOD, "{counts:?}");
    }
}

#[test]
fn another_length_is_not() {
    let shelf = new_shelf(SMALL);
    let mut longer = shelf.clone();
    longer.push(0);
    assert_eq!(read(&longer), BAD_IMAGE);
    for length in 0..shelf.len() {
        assert_eq!(read(&shelf[..length]), BAD_IMAGE, "{length} bytes");
    }
}

#[test]
fn another_offset_is_not() {
    let shelf = new_shelf(SMALL);
    for at in [20, 24, 28] {
        for off in [-4, -1, 1, 4] {
            let number = i32::from_be_bytes(shelf[at..at + 4].try_into().unwrap()) + off;
            let wrong = with(&shelf, at, &number.to_be_bytes());
            assert_eq!(read(&wrong), BAD_IMAGE, "{number} at {at}");
        }
    }
}

/// The first and the last number that the header's words allow the count with this name.
fn limits(name: &str) -> [u32; 2] {
    let wanted = |line: &&str| line.starts_with(" *   at ") && line[10..].contains(name);
    let line = HEADER.lines().find(wanted).expect("a line of the count");
    let words: Vec<String> = line
        .split(' ')
        .map(|word| word.replace([',', ';'], ""))
        .collect();
    let to = words.iter().position(|word| word == "to").expect("a range");
    [to - 1, to + 1].map(|place| words[place].parse().expect("a number"))
}

#[test]
fn counts_are_valid_up_to_their_limits() {
    let least: Counts = [2, 1, 4, 0, 1];
    for (place, name) in ["   D    ", "   B    ", "   L    ", "   S    ", "   M    "]
        .iter()
        .enumerate()
    {
        let step = if place == 2 { 4 } else { 1 };
        let [first, last] = limits(name);
        let shelf_of = |number: u32| {
            let mut counts = least;
            counts[place] = number;
            new_shelf(counts)
        };
        assert_eq!(read(&shelf_of(first)), GOOD, "{name}{first}");
        assert_eq!(read(&shelf_of(last)), GOOD, "{name}{last}");
        assert_eq!(read(&shelf_of(last + step)), BAD_IMAGE, "{name}{last}");
        if first > 0 {
            assert_eq!(read(&shelf_of(first - step)), BAD_IMAGE, "{name}{first}");
        }
    }
    assert_eq!(read(&new_shelf([2, 1, 6, 0, 1])), BAD_IMAGE, "L not of 4");
}

#[test]
fn states_and_addresses_are_as_said() {
    let shelf = new_shelf(SMALL);
    assert_eq!(read(&with(&shelf, 36, &[1])), GOOD, "drive 2 failed");
    assert_eq!(read(&with(&shelf, 36, &[2])), BAD_IMAGE, "state 2");
    assert_eq!(read(&with(&shelf, 37, &[0, 0, 0])), GOOD, "address 0");
    assert_eq!(read(&with(&shelf, 37, &[255; 3])), GOOD, "FFFFFFh");
    assert_eq!(read(&with(&shelf, 37, &[0, 0, 3])), BAD_IMAGE, "3 twice");
}

#[test]
fn each_block_stands_where_it_is_said() {
    let mut shelf = new_shelf(SMALL);
    for (place, byte) in shelf[MEDIA..].iter_mut().enumerate() {
        *byte = place as u8;
    }
    for (d, b) in [(0, 0), (0, 1), (1, 0), (1, 1), (2, 0), (2, 1)] {
        let first = MEDIA + (d * 2 + b) * 8;
        let (answer, bytes) = send(&mut shelf.clone(), 0x28, d as u32 + 1, b as u8);
        assert_eq!((answer, &bytes[..]), (GOOD, &shelf[first..first + 8]));
    }
}

/// A record: rank, kind, drive, length, block and the last four bytes.
fn record(rank: u32, kind: u8, drive: u8, length: u16, block: u32, last: u32) -> Vec<u8> {
    let mut bytes = rank.to_be_bytes().to_vec();
    bytes.extend([kind, drive]);
    bytes.extend(length.to_be_bytes());
    bytes.extend(block.to_be_bytes());
    bytes.extend(last.to_be_bytes());
    bytes
}

#[test]
fn a_used_slot_holds_a_result() {
    let shelf = new_shelf(SMALL);
    // The older result stands in the second slot, and the newer one of REGENERATE in the first.
    let one = with(&shelf, SLOTS + SLOT, &record(1, 1, 0, 1, 0, 0));
    let one = with(&one, SLOTS + SLOT + 16, b"an olderand more");
    let mut both = with(&one, SLOTS, &record(2, 2, 0, 1, 0, 0));
    both[SLOTS + 16..SLOTS + 24].copy_from_slice(b"a newer!");
    for expected in [b"a newer!", b"an older"] {
        let (answer, bytes) = send(&mut both, 0xC2, 1, 0);
        assert_eq!((answer, &bytes[..]), (GOOD, &expected[..]));
    }
    assert_eq!(send(&mut both, 0xC2, 1, 0).0, 2, "none is left");
    assert_eq!(both[SLOTS..SLOTS + 16], [0; 16], "empty");
}

#[test]
fn records_are_as_said() {
    let shelf = new_shelf(SMALL);
    let answer = |record: Vec<u8>| read(&with(&shelf, SLOTS, &record));
    assert_eq!(answer(record(1, 1, 0, 1, 0, 0)), GOOD);
    assert_eq!(answer(record(1, 2, 2, 2, 0, 0)), GOOD, "the last drive");
    assert_eq!(answer(record(1, 1, 0, 1, 1, 0)), GOOD, "the last block");
    for (wrong, why) in [
        (record(0, 1, 0, 1, 0, 0), "rank 0"),
        (record(2, 1, 0, 1, 0, 0), "rank 1 is missing"),
        (record(1, 0, 0, 1, 0, 0), "kind 0 and not empty"),
        (record(1, 3, 0, 1, 0, 0), "kind 3"),
        (record(1, 1, 3, 1, 0, 0), "drive D"),
        (record(1, 1, 0, 0, 0, 0), "length 0"),
        (record(1, 1, 0, 3, 0, 0), "beyond B"),
        (record(1, 1, 0, 1, 2, 0), "block B"),
        (record(1, 1, 0, 1, 0, 1), "the last bytes are not zero"),
        (record(0, 0, 0, 0, 0, 1), "empty but for the last byte"),
    ] {
        assert_eq!(answer(wrong), BAD_IMAGE, "{why}");
    }
    let twice = with(&shelf, SLOTS, &record(1, 1, 0, 1, 0, 0));
    let twice = with(&twice, SLOTS + SLOT, &record(1, 1, 1, 1, 0, 0));
    assert_eq!(read(&twice), BAD_IMAGE, "rank 1 twice");
    let wide = new_shelf([2, 8, 4, 1, 2]);
    let above = with(&wide, 40, &record(1, 1, 0, 3, 0, 0));
    assert_eq!(read(&above), BAD_IMAGE, "length above M");
    let below = with(&wide, 40, &record(1, 1, 0, 2, 6, 0));
    assert_eq!(read(&below), GOOD, "length M, at the end");
}

#[test]
fn data_of_an_empty_slot_may_be_anything() {
    let shelf = with(&new_shelf(SMALL), SLOTS + 16, &[0xAA; SLOT - 16]);
    assert_eq!(read(&shelf), GOOD);
}
