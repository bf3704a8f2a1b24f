//! A1: the published codes 50h to 53h beside those of 1994.

mod common;

use common::{hex, Answer, Rig, C2, FIELD, RANGE};
use second::{Good, Refusal};

/// Block 0, with every bit of byte 1 that may be one but DISABLE WRITE.
const KEEP: &str = "50 18 00000000 00 0001 00";
const XOR_IN: &str = "51 18 00000000 00 0001 00";
const FETCH: &str = "52 00 00000000 00 0001 00";
const HAND_OVER: &str = "53 18 00000000 00 0001 00";
/// The same with DISABLE WRITE.
const KEEP_ONLY: &str = "50 1C 00000000 00 0001 00";
const HAND_OVER_ONLY: &str = "53 1C 00000000 00 0001 00";
/// Of 1994: XDWRITE with Sec Ctl 11 and NDisc, and XDREAD.
const OLD_KEEP_ONLY: &str = "C0 26 00000000 0001 000000 00000000 00";
const OLD_FETCH: &str = "C2 00 00000000 00 0001 00";

/// Offsets in the bench shelf: its slot, and block 0 of drives 1 and 3.
const SLOT: usize = 44;
const DRIVE_1: usize = 68;
const DRIVE_3: usize = 84;

const NEW: &str = "FF00FF00";
/// NEW XOR block 0 of drive 1.
const RESULT: &str = "F50BF30D";
const RECORD: &str = "00000001 01 00 0001 00000000 00000000 F50BF30D";

/// The bench shelf with its slot used by drive 2.
fn full() -> Rig {
    let mut rig = Rig::bench();
    rig.good(2, C2, "00000000", Good::XorRetained);
    rig
}

#[test]
fn xdwrite_10_writes_and_retains() {
    let mut rig = Rig::bench();
    rig.good(1, KEEP, NEW, Good::XorRetained);
    assert_eq!(rig, Rig::bench().with(DRIVE_1, NEW).with(SLOT, RECORD));
}

#[test]
fn xdwrite_10_with_disable_write_retains_alone() {
    let mut rig = Rig::bench();
    rig.good(1, KEEP_ONLY, NEW, Good::XorRetainedOnly);
    assert_eq!(rig, Rig::bench().with(SLOT, RECORD));
}

#[test]
fn xdwrite_10_of_two_blocks_fills_its_slot() {
    let mut rig = Rig::bench();
    let cdb = "50 00 00000000 00 0002 00";
    rig.good(1, cdb, "FF00FF00 12345678", Good::XorRetained);
    let record = "00000001 01 00 0002 00000000 00000000 F50BF30D 12345678";
    let after = Rig::bench().with(SLOT, record);
    assert_eq!(rig, after.with(DRIVE_1, "FF00FF00 12345678"));
}

#[test]
fn xpwrite_10_xors_the_data_in() {
    let mut rig = Rig::bench();
    rig.good(3, XOR_IN, NEW, Good::XorWrite);
    assert_eq!(rig, Rig::bench().with(DRIVE_3, "F409F009"));
    rig.good(3, "C1 00 00000000 00 0001 00", NEW, Good::XorWrite);
    assert_eq!(rig, Rig::bench());
}

#[test]
fn either_xdread_answers_either_xdwrite() {
    for keep in [KEEP, C2] {
        for fetch in [FETCH, OLD_FETCH] {
            let mut rig = Rig::bench();
            rig.good(1, keep, NEW, Good::XorRetained);
            let result = rig.fetched(1, fetch, "", Good::FetchedXdWrite);
            assert_eq!(result, hex(RESULT));
            let after = Rig::bench().with(DRIVE_1, NEW);
            assert_eq!(rig, after.with(SLOT + 16, RESULT));
        }
    }
}

#[test]
fn xdread_10_answers_regenerate() {
    let mut rig = Rig::bench();
    let list = "01010000 00000000 00000003 00000000";
    rig.good(1, "C4 00 00000001 00 0010 00", list, Good::Regenerated);
    let result = rig.fetched(1, FETCH, "", Good::FetchedRegenerate);
    assert_eq!(result, hex("01020304"));
}

#[test]
fn the_newest_of_both_sets_comes_first() {
    let mut rig = Rig::shelf(3, 2, 4, 4, 2);
    let at_block_1 = "50 04 00000001 00 0001 00";
    rig.good(1, at_block_1, NEW, Good::XorRetainedOnly);
    rig.good(1, OLD_KEEP_ONLY, "11111111", Good::XorRetainedOnly);
    rig.good(1, KEEP_ONLY, "22222222", Good::XorRetainedOnly);
    rig.good(1, OLD_KEEP_ONLY, "33333333", Good::XorRetainedOnly);
    // Slot 0 becomes free, and the newest takes it.
    let from_block_1 = "C2 00 00000001 00 0001 00";
    rig.fetched(1, from_block_1, "", Good::FetchedXdWrite);
    rig.good(1, KEEP_ONLY, "44444444", Good::XorRetainedOnly);
    assert_eq!(rig.image[44..48], hex("00000004"));
    let results = ["44444444", "33333333", "22222222", "11111111"];
    let fetches = [OLD_FETCH, FETCH, FETCH, OLD_FETCH];
    for (fetch, result) in fetches.into_iter().zip(results) {
        let newest = rig.fetched(1, fetch, "", Good::FetchedXdWrite);
        assert_eq!(newest, hex(result));
    }
    let (answer, why) = (Answer::Check(FIELD), Refusal::NoResult);
    rig.refused(1, FETCH, "", answer, why);
}

#[test]
fn the_newest_of_the_other_set_decides_even_where_an_older_one_fits() {
    let two = "C0 26 00000000 0002 000000 00000000 00";
    let mut rig = Rig::bench_of_two_slots();
    rig.good(1, KEEP_ONLY, NEW, Good::XorRetainedOnly);
    rig.good(1, two, "1111111122222222", Good::XorRetainedOnly);
    let (answer, why) = (Answer::Check(FIELD), Refusal::OtherLength);
    rig.refused(1, FETCH, "", answer, why);
    let cdb = "52 00 00000000 00 0002 00";
    rig.fetched(1, cdb, "", Good::FetchedXdWrite);
    let result = rig.fetched(1, OLD_FETCH, "", Good::FetchedXdWrite);
    assert_eq!(result, hex(RESULT));
}

#[test]
fn a_result_is_carried_by_the_published_codes() {
    let mut rig = Rig::bench();
    rig.good(1, KEEP, NEW, Good::XorRetained);
    let open = "drives 3 blocks 2 length 4 open 1\nrow 0 sum f50bf30d\n";
    assert_eq!(rig.listing(), open);
    rig.fetched(1, FETCH, "", Good::FetchedXdWrite);
    rig.good(3, XOR_IN, RESULT, Good::XorWrite);
    assert_eq!(rig.listing(), "drives 3 blocks 2 length 4 open 0\n");
}

#[test]
fn xdwriteread_10_writes_and_hands_over() {
    let mut rig = Rig::bench();
    let result = rig.fetched(1, HAND_OVER, NEW, Good::XorHanded);
    assert_eq!(result, hex(RESULT));
    assert_eq!(rig, Rig::bench().with(DRIVE_1, NEW));
    rig.good(3, XOR_IN, RESULT, Good::XorWrite);
    assert_eq!(rig.listing(), "drives 3 blocks 2 length 4 open 0\n");
}

#[test]
fn xdwriteread_10_with_disable_write_hands_over_alone() {
    let mut rig = Rig::bench();
    let result = rig.fetched(1, HAND_OVER_ONLY, NEW, Good::XorHandedOnly);
    assert_eq!(result, hex(RESULT));
    assert_eq!(rig, Rig::bench());
}

#[test]
fn xdwriteread_10_goes_to_the_named_blocks() {
    let mut rig = Rig::bench().with(DRIVE_1 + 4, "01010101");
    let cdb = "53 00 00000001 00 0001 00";
    let result = rig.fetched(1, cdb, NEW, Good::XorHanded);
    assert_eq!(result, hex("FE01FE01"));
    assert_eq!(rig, Rig::bench().with(DRIVE_1 + 4, NEW));
    let cdb = "53 00 00000000 00 0002 00";
    let result = rig.fetched(1, cdb, "0000000000000000", Good::XorHanded);
    assert_eq!(result, hex("0A0B0C0D FF00FF00"));
    assert_eq!(rig, Rig::bench().with(DRIVE_1, "00000000"));
}

#[test]
fn xdwriteread_10_takes_no_slot() {
    for mut rig in [full(), Rig::shelf(3, 2, 4, 0, 2)] {
        let before = rig.clone();
        rig.fetched(1, HAND_OVER_ONLY, NEW, Good::XorHandedOnly);
        assert_eq!(rig, before);
        let media = rig.image.len() - 24;
        rig.fetched(1, HAND_OVER, NEW, Good::XorHanded);
        assert_eq!(rig, before.with(media, NEW));
    }
}

#[test]
fn xdwrite_10_without_an_empty_slot_is_busy() {
    for mut rig in [full(), Rig::shelf(3, 2, 4, 0, 2)] {
        for cdb in [KEEP, KEEP_ONLY] {
            rig.refused(1, cdb, NEW, Answer::Busy, Refusal::NoEmptySlot);
        }
    }
    let mut rig = Rig::bench();
    rig.good(2, KEEP, "00000000", Good::XorRetained);
    rig.refused(1, C2, NEW, Answer::Busy, Refusal::NoEmptySlot);
}

#[test]
fn a_room_for_xdwriteread_10_that_is_short_by_a_byte_moves_nothing() {
    let short = (Answer::Call(5), Refusal::ReceiveRoomShort);
    let two = "53 00 00000000 00 0002 00";
    for (cdb, data, size) in [
        (HAND_OVER, NEW, 4),
        (HAND_OVER_ONLY, NEW, 4),
        (two, "FF00FF00FF00FF00", 8),
    ] {
        let mut rig = Rig::bench();
        for room in 0..size {
            rig.refused_with_room(1, cdb, data, room, short);
        }
        let outcome = rig.send(1, cdb, data, size);
        assert_eq!((outcome.number, outcome.count), (0, Some(size as u32)));
    }
}

#[test]
fn the_others_need_no_room_but_xdread_10() {
    let mut rig = Rig::bench();
    assert_eq!(rig.send(1, KEEP, NEW, 0).number, 0);
    assert_eq!(rig.send(1, XOR_IN, NEW, 0).number, 0);
    let short = (Answer::Call(5), Refusal::ReceiveRoomShort);
    rig.refused_with_room(1, FETCH, "", 3, short);
    assert_eq!(rig.send(1, FETCH, "", 4).room, hex(RESULT));
}

#[test]
fn zero_length_is_good_but_for_xdread_10() {
    for mut rig in [Rig::bench(), full(), Rig::shelf(3, 2, 4, 0, 2)] {
        let before = rig.clone();
        for (code, byte1) in [("50", "00"), ("50", "1C"), ("51", "18"), ("53", "04")] {
            let cdb = format!("{code} {byte1} FFFFFFFF 00 0000 00");
            rig.good(1, &cdb, "", Good::ZeroLength);
            assert_eq!(rig.send(1, &cdb, "", 0).number, 0, "{cdb} into no room");
        }
        assert_eq!(rig, before);
    }
    let mut rig = full();
    let (cdb, answer) = ("52 00 00000000 00 0000 00", Answer::Check(FIELD));
    rig.refused(1, cdb, "", answer, Refusal::NoResult);
    rig.refused(2, cdb, "", answer, Refusal::OtherLength);
}

#[test]
fn the_data_count_is_exact_and_comes_before_the_range() {
    let (answer, why) = (Answer::Call(4), Refusal::DataCount);
    let mut rig = Rig::bench();
    for code in ["50", "51", "53"] {
        for block in ["00000000", "00000009"] {
            let cdb = format!("{code} 00 {block} 00 0001 00");
            for data in ["", "FF00FF", "FF00FF0000", "FF00FF00FF00FF00"] {
                rig.refused(1, &cdb, data, answer, why);
            }
            let none = format!("{code} 00 {block} 00 0000 00");
            rig.refused(1, &none, "01", answer, why);
        }
    }
    rig.refused(1, FETCH, "01", answer, why);
    rig.refused_with_room(1, HAND_OVER, "FF00FF", 0, (answer, why));
}

#[test]
fn the_range_comes_before_the_slot_and_the_room() {
    let (answer, why) = (Answer::Check(RANGE), Refusal::OutOfRange);
    let mut rig = full();
    for code in ["50", "51", "53"] {
        let next = format!("{code} 00 00000002 00 0001 00");
        rig.refused_with_room(1, &next, NEW, 0, (answer, why));
        let across = format!("{code} 00 00000001 00 0002 00");
        rig.refused_with_room(1, &across, "FF00FF00FF00FF00", 0, (answer, why));
    }
    let (answer, why) = (Answer::Check(FIELD), Refusal::NoResult);
    rig.refused(1, "52 00 FFFFFFFF 00 0001 00", "", answer, why);
}

#[test]
fn the_limit_of_a_slot_comes_before_the_data_count_and_the_range() {
    let (answer, why) = (Answer::Check(FIELD), Refusal::LengthAboveSlot);
    for code in ["50", "51", "53"] {
        let cdb = format!("{code} 00 00000009 00 0003 00");
        Rig::bench().refused(1, &cdb, "", answer, why);
    }
}
