//! The numbers, the sense room and the count at the C boundary.

mod common;

use common::{hex, Answer, Rig, C1, FIELD, NESTED_UNKNOWN};
use second::{mark, reset, step, Refusal};

#[test]
fn a_short_sense_room_comes_before_all_and_moves_nothing() {
    let mut room = [0xEE; 8];
    let mut sense = [0xAA; 36];
    let mut count = 0xDEAD_BEEF;
    let number = step(&mut [], 1, &[], &[], &mut room, &mut sense, &mut count);
    assert_eq!(number, 261);
    assert_eq!((room, sense, count), ([0xEE; 8], [0xAA; 36], 0xDEAD_BEEF));
}

#[test]
fn a_short_sense_room_stops_a_read_that_would_be_good() {
    let mut image = hex(common::BENCH);
    let mut room = [0xEE; 8];
    let mut count = 0xDEAD_BEEF;
    let cdb = hex("28 00 00000000 00 0001 00");
    let number = step(&mut image, 1, &cdb, &[], &mut room, &mut [], &mut count);
    assert_eq!(number, 261);
    assert_eq!((room, count), ([0xEE; 8], 0xDEAD_BEEF));
    assert_eq!(image, hex(common::BENCH));
}

#[test]
fn every_other_call_writes_37_bytes_of_sense_and_the_count() {
    let mut sense = [0xAA; 40];
    let mut count = 0xDEAD_BEEF;
    let number = step(&mut [], 1, &[], &[], &mut [], &mut sense, &mut count);
    assert_eq!(number, 257);
    assert_eq!(sense[..37], [0; 37]);
    assert_eq!(sense[37..], [0xAA; 3]);
    assert_eq!(count, 0);
}

#[test]
fn a_sense_room_of_37_bytes_is_enough() {
    let mut image = hex(common::BENCH);
    let mut sense = [0xAA; 37];
    let mut room = [0xEE; 5];
    let mut count = 0xDEAD_BEEF;
    let cdb = hex("28 00 00000000 00 0001 00");
    let number = step(&mut image, 1, &cdb, &[], &mut room, &mut sense, &mut count);
    assert_eq!((number, count), (0, 4));
    assert_eq!(room, [0x0A, 0x0B, 0x0C, 0x0D, 0xEE]);
    assert_eq!(sense, [0; 37]);
}

#[test]
fn the_length_of_a_sense_follows_from_byte_7() {
    for refusal in Refusal::ALL {
        let sense = refusal.sense();
        let length = match sense.first() {
            None => 0,
            Some(_) => usize::from(sense[7]) + 8,
        };
        assert_eq!(sense.len(), length, "{refusal:?}");
        assert_eq!(sense.is_empty(), refusal.number() != 2, "{refusal:?}");
    }
}

#[test]
fn a_target_is_never_cut_to_three_bytes() {
    let mut rig = Rig::bench();
    let answer = Answer::Call(2);
    rig.refused(0x0100_0001, C1, "FF00FF00", answer, Refusal::NoSuchTarget);
    assert_eq!(reset(&mut rig.image, 0x0100_0001), 258);
    assert_eq!(mark(&mut rig.image, 0x0100_0001, 1), 258);
    assert_eq!(rig, Rig::bench());
}

#[test]
fn a_state_is_never_cut_to_one_byte() {
    let mut rig = Rig::bench();
    for state in [2, 255, 256, 257, 0xFFFF_FFFF] {
        assert_eq!(mark(&mut rig.image, 1, state), 262, "{state}");
    }
    assert_eq!(rig, Rig::bench());
}

#[test]
fn an_unknown_target_comes_before_a_bad_state() {
    let mut rig = Rig::bench();
    assert_eq!(mark(&mut rig.image, 9, 2), 258);
    assert_eq!(mark(&mut [], 9, 2), 257);
    assert_eq!(rig, Rig::bench());
}

#[test]
fn marking_writes_the_state_byte_alone() {
    let mut rig = Rig::bench();
    rig.mark(2, 1);
    assert_eq!(rig, Rig::bench().with(36, "01"));
    rig.mark(2, 1);
    assert_eq!(rig, Rig::bench().with(36, "01"));
    rig.mark(2, 0);
    assert_eq!(rig, Rig::bench());
}

#[test]
fn reset_of_an_image_that_is_no_shelf_is_call_1() {
    let mut image = hex(common::BENCH);
    image.pop();
    let before = image.clone();
    assert_eq!(reset(&mut image, 1), 257);
    assert_eq!(image, before);
}

#[test]
fn the_control_byte_must_be_zero() {
    let cdb = "28 00 00000000 00 0001 01";
    let answer = Answer::Check(FIELD);
    Rig::bench().refused(1, cdb, "", answer, Refusal::ControlByte);
}

#[test]
fn an_unknown_secondary_is_told_in_36_bytes() {
    let cdb = "C0 00 00000000 0001 000009 00000000 00";
    let answer = Answer::Check(NESTED_UNKNOWN);
    assert_eq!(hex(NESTED_UNKNOWN).len(), 36);
    Rig::bench().refused(1, cdb, "FF00FF00", answer, Refusal::SecondaryUnknown);
}
