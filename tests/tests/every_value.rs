//! One byte at a time set to every value, and one buffer at a time to every length.

extern crate shelf_tests as second;

#[path = "../../second/tests/common/mod.rs"]
mod common;

use common::{step_call, Rig};
use second::{mark, reset, StepCall};

/// Three slots at 44, 68 and 92, media at 116. Drive 1 has two results at block 0, of one and
/// two blocks; the newer stands in slot 0, and slot 1 is empty.
fn shelf() -> Vec<u8> {
    let mut rig = Rig::shelf(3, 2, 4, 3, 2);
    rig.patch(44, "00000002 01 00 0001 00000000 00000000 11223344");
    rig.patch(92, "00000001 02 00 0002 00000000 00000000");
    rig.patch(108, "5566778899AABBCC");
    rig.patch(116, "0A0B0C0D 10203040 01020304 55667788 0B090F09");
    rig.image
}

const LIST: &str = "02 01 0000 00000000 00000002 00000000 00000003 00000001";

/// Commands to drive 1 that are GOOD on that shelf, one of each sort.
fn commands() -> Vec<StepCall> {
    let with_data = format!("{LIST} CAFEF00D");
    let step = |cdb: &str, data: &str| step_call(1, cdb, data, 9);
    vec![
        step("C0 00 00000000 0001 000003 00000001 00", "FF00FF00"),
        step("C0 44 00000001 0001 000002 00000000 00", "FF00FF00"),
        step("C0 26 00000000 0001 000000 00000000 00", "FF00FF00"),
        step("C1 00 00000001 00 0001 00", "FF00FF00"),
        step("C2 00 00000000 00 0001 00", ""),
        step("C3 00 00000001 00 0018 00", LIST),
        step("C3 04 00000001 00 0018 00", &with_data),
        step("C4 00 00000001 00 0018 00", LIST),
        step("C4 04 00000001 00 0018 00", &with_data),
        step("28 00 00000000 00 0002 00", ""),
        step("2A 00 00000000 00 0002 00", "0123456789ABCDEF"),
        step("50 00 00000000 00 0001 00", "FF00FF00"),
        step("50 04 00000000 00 0002 00", "0123456789ABCDEF"),
        step("51 00 00000001 00 0001 00", "FF00FF00"),
        step("52 00 00000000 00 0001 00", ""),
        step("53 00 00000000 00 0002 00", "0123456789ABCDEF"),
        step("53 04 00000001 00 0001 00", "FF00FF00"),
    ]
}

/// Makes the step on the shelf, where both implementations must agree, and gives the number.
fn answer(call: &StepCall) -> u32 {
    call.run(&mut shelf()).number
}

/// How many of the calls are GOOD.
fn good(calls: impl Iterator<Item = StepCall>) -> usize {
    calls.filter(|call| answer(call) == 0).count()
}

/// The call with one byte of one of its buffers set to each value in turn.
fn with_every_byte(
    call: &StepCall,
    buffer: fn(&mut StepCall) -> &mut Vec<u8>,
) -> impl Iterator<Item = StepCall> {
    let call = call.clone();
    let places = buffer(&mut call.clone()).len();
    (0..places).flat_map(move |place| {
        let call = call.clone();
        (0..=0xFF).map(move |value| {
            let mut call = call.clone();
            buffer(&mut call)[place] = value;
            call
        })
    })
}

/// The call with one of its buffers cut or filled up to each length in turn.
fn with_every_length(
    call: &StepCall,
    most: usize,
    buffer: fn(&mut StepCall) -> &mut Vec<u8>,
) -> impl Iterator<Item = StepCall> {
    let call = call.clone();
    (0..=most).map(move |length| {
        let mut call = call.clone();
        buffer(&mut call).resize(length, 0);
        call
    })
}

#[test]
fn the_commands_are_good_as_they_stand() {
    for call in commands() {
        assert_eq!(answer(&call), 0, "{:02X?}", call.cdb);
    }
}

/// Each byte has one value that is GOOD, at least, and not every value is.
fn expect_some_good(call: &StepCall, buffer: fn(&mut StepCall) -> &mut Vec<u8>) {
    let places = buffer(&mut call.clone()).len();
    let good = good(with_every_byte(call, buffer));
    assert!(good >= places, "{good} for {:02X?}", call.cdb);
    assert!(good < places * 256, "{good} for {:02X?}", call.cdb);
}

#[test]
fn every_byte_of_a_cdb() {
    for call in commands() {
        expect_some_good(&call, |call| &mut call.cdb);
    }
}

#[test]
fn every_byte_of_a_list() {
    for call in commands().into_iter().filter(|call| call.data.len() > 8) {
        expect_some_good(&call, |call| &mut call.data);
    }
}

#[test]
fn every_byte_of_the_image() {
    let calls = commands();
    let mut good = [0; 3];
    for place in 0..shelf().len() {
        for value in 0..=0xFF {
            let mut image = shelf();
            image[place] = value;
            let call = &calls[(place + usize::from(value)) % calls.len()];
            good[0] += u32::from(reset(&mut image.clone(), 1) == 0);
            good[1] += u32::from(mark(&mut image.clone(), 1, 1) == 0);
            good[2] += u32::from(call.run(&mut image).number == 0);
        }
    }
    let [resets, marks, steps] = good;
    // The 48 bytes of slot data and media may be anything; of the others only two drives'
    // addresses have much choice.
    assert!(48 * 256 <= steps && steps < resets, "{good:?}");
    assert!(resets == marks && marks < 56 * 256, "{good:?}");
}

#[test]
fn cdbs_of_every_length() {
    for call in commands() {
        let good = good(with_every_length(&call, 40, |call| &mut call.cdb));
        assert_eq!(good, 1, "{:02X?}", call.cdb);
    }
}

#[test]
fn data_of_every_length() {
    for call in commands() {
        let good = good(with_every_length(&call, 60, |call| &mut call.data));
        assert_eq!(good, 1, "{:02X?}", call.cdb);
    }
}

#[test]
fn receive_rooms_of_every_length() {
    for call in commands() {
        let short = match call.cdb[0] {
            0xC2 | 0x52 => 4,
            0x28 => 8,
            0x53 => call.data.len(),
            _ => 0,
        };
        let good = good(with_every_length(&call, 60, |call| &mut call.room));
        assert_eq!(good, 61 - short, "{:02X?}", call.cdb);
    }
}

#[test]
fn sense_rooms_of_every_length() {
    for call in commands() {
        let good = good(with_every_length(&call, 80, |call| &mut call.sense));
        assert_eq!(good, 81 - 37, "{:02X?}", call.cdb);
    }
}

#[test]
fn images_of_every_length() {
    for call in commands() {
        for length in 0..200 {
            let mut image = shelf();
            let whole = image.len() == length;
            image.resize(length, 0);
            let number = call.run(&mut image).number;
            assert_eq!(number, if whole { 0 } else { 257 }, "{length}");
        }
    }
}
