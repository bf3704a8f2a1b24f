//! "The first that applies decides": calls that more than one check refuses.

mod common;

use common::{
    Answer, Rig, C1, C2, CODE, FIELD, GONE, LIST, LIST_LENGTH, NESTED_GONE, NESTED_RANGE,
    NESTED_UNKNOWN, RANGE,
};
use second::{Good, Refusal};

/// A list of one source, drive 2 at block 0, for own block 0.
const ONE: &str = "01010000 00000000 00000002 00000000";
const REBUILD: &str = "C3 00 00000001 00 0010 00";
const REBUILD_OF_TWO: &str = "C3 00 00000001 00 0018 00";
const REGENERATE: &str = "C4 00 00000001 00 0010 00";

/// The codes of 1994, READ and WRITE, and the published ones.
const KNOWN: [u8; 11] = [
    0xC0, 0xC1, 0xC2, 0xC3, 0xC4, 0x28, 0x2A, 0x50, 0x51, 0x52, 0x53,
];

/// The bench shelf with its slot used.
fn full() -> Rig {
    let mut rig = Rig::bench();
    rig.good(1, C2, "FF00FF00", Good::XorRetained);
    rig
}

#[test]
fn the_image_comes_before_the_target_and_the_cdb() {
    let mut rig = Rig { image: Vec::new() };
    rig.refused(9, "", "", Answer::Call(1), Refusal::NotAShelf);
    let mut rig = Rig::bench();
    rig.image.push(0);
    rig.refused(1, C1, "FF00FF00", Answer::Call(1), Refusal::NotAShelf);
}

#[test]
fn the_target_comes_before_the_cdb() {
    let mut rig = Rig::bench();
    rig.refused(9, "", "", Answer::Call(2), Refusal::NoSuchTarget);
    rig.refused(9, "FF", "", Answer::Call(2), Refusal::NoSuchTarget);
    rig.refused(1, "", "", Answer::Call(3), Refusal::EmptyCdb);
}

#[test]
fn the_cdb_length_comes_before_the_failed_target() {
    let mut rig = Rig::bench();
    rig.mark(1, 1);
    let cdb = "C0 00 00000000 0001 00 00";
    rig.refused(1, cdb, "", Answer::Call(3), Refusal::CdbLength);
    rig.refused(1, "", "", Answer::Call(3), Refusal::EmptyCdb);
}

#[test]
fn a_known_code_has_one_length() {
    let mut rig = Rig::bench();
    for code in KNOWN {
        let right = if code == 0xC0 { 16 } else { 10 };
        for length in (1..20).filter(|length| *length != right) {
            let cdb = format!("{code:02X} {}", "00".repeat(length - 1));
            rig.refused(1, &cdb, "", Answer::Call(3), Refusal::CdbLength);
        }
    }
}

#[test]
fn an_unknown_code_comes_before_the_failed_target_at_any_length() {
    let mut rig = Rig::bench();
    rig.mark(1, 1);
    let (answer, why) = (Answer::Check(CODE), Refusal::UnknownCode);
    for cdb in ["FF", "00", "08 00000000", "C5 00 00000000 00 0000 00"] {
        rig.refused(1, cdb, "01", answer, why);
    }
    let cdb = "29 FF 00000000 FF 0001 FF";
    rig.refused(2, cdb, "", answer, why);
}

#[test]
fn every_code_but_eleven_is_unknown() {
    for code in (0..=0xFF).filter(|code| !KNOWN.contains(code)) {
        let cdb = format!("{code:02X} 00 00000000 00 0000 00");
        Rig::bench().refused(1, &cdb, "", Answer::Check(CODE), Refusal::UnknownCode);
    }
}

#[test]
fn the_failed_target_comes_before_bits_and_data() {
    let mut rig = Rig::bench();
    rig.mark(1, 1);
    let (answer, why) = (Answer::Check(GONE), Refusal::TargetFailed);
    for code in KNOWN.into_iter().filter(|code| *code != 0xC0) {
        let cdb = format!("{code:02X} FF 00000000 FF FFFF FF");
        rig.refused(1, &cdb, "01", answer, why);
    }
    rig.refused(1, "28 01 00000000 00 0001 00", "01", answer, why);
    rig.refused(1, "28 00 00000000 00 0000 00", "", answer, why);
    rig.refused(1, "C3 00 00000001 00 0000 00", "", answer, why);
}

#[test]
fn fields_come_before_the_data_count() {
    let mut rig = Rig::bench();
    let answer = Answer::Check(FIELD);
    rig.refused(
        1,
        "28 01 00000000 00 0001 00",
        "01",
        answer,
        Refusal::ReservedByte1,
    );
    let cdb = "C3 04 FFFFFFFF 00 0010 00";
    rig.refused(1, cdb, ONE, answer, Refusal::ToTheEndWithIntData);
    let why = Refusal::LengthAboveSlot;
    rig.refused(1, "C1 00 00000000 00 0003 00", "", answer, why);
}

#[test]
fn fields_come_before_zero_length() {
    let mut rig = Rig::bench();
    let answer = Answer::Check(FIELD);
    let cdb = "C0 00 00000000 0000 000001 00000000 00";
    rig.refused(1, cdb, "", answer, Refusal::SecondaryIsTarget);
    let cdb = "C3 04 FFFFFFFF 00 0000 00";
    rig.refused(1, cdb, "", answer, Refusal::ToTheEndWithIntData);
    let cdb = "C4 00 00000003 00 0000 00";
    rig.refused(1, cdb, "", answer, Refusal::LengthAboveSlot);
}

#[test]
fn the_data_count_comes_before_zero_length() {
    let mut rig = Rig::bench();
    let (answer, why) = (Answer::Call(4), Refusal::DataCount);
    rig.refused(1, "C1 00 00000000 00 0000 00", "01", answer, why);
    rig.refused(1, "28 00 00000000 00 0000 00", "01", answer, why);
    let cdb = "C0 06 00000000 0000 000000 00000000 00";
    rig.refused(1, cdb, "01", answer, why);
    rig.refused(1, "C3 04 00000001 00 0000 00", "FF00FF00", answer, why);
    rig.good(1, "C3 04 00000001 00 0000 00", "", Good::NoList);
    rig.refused(1, "C4 00 00000001 00 0000 00", "01", answer, why);
    rig.good(1, "C4 00 00000001 00 0000 00", "", Good::NoList);
}

#[test]
fn the_data_count_comes_before_list_range_and_room() {
    let mut rig = Rig::bench();
    let (answer, why) = (Answer::Call(4), Refusal::DataCount);
    rig.refused(1, REBUILD, "00", answer, why);
    rig.refused(1, "2A 00 00000009 00 0001 00", "FF00FF", answer, why);
    rig.refused(1, "2A 00 00000009 00 0001 00", "FF00FF0011", answer, why);
    rig.refused(1, "C2 00 00000000 00 0001 00", "01", answer, why);
    rig.refused_with_room(1, "28 00 00000000 00 0001 00", "01", 0, (answer, why));
    let data = format!("{ONE} FF00FF");
    rig.refused(1, "C4 04 00000001 00 0010 00", &data, answer, why);
}

#[test]
fn zero_length_is_good_whatever_block_and_secondary_say() {
    let mut rig = Rig::bench();
    let cdb = "C0 00 FFFFFFFF 0000 000009 FFFFFFFF 00";
    rig.good(1, cdb, "", Good::ZeroLength);
    rig.good(1, "28 00 FFFFFFFF 00 0000 00", "", Good::ZeroLength);
    rig.good(1, "2A 00 FFFFFFFF 00 0000 00", "", Good::ZeroLength);
    rig.good(1, "C3 00 FFFFFFFF 00 0000 00", "", Good::NoList);
    assert_eq!(rig, Rig::bench());
}

#[test]
fn the_list_length_comes_before_what_the_list_says() {
    let mut rig = Rig::bench();
    let answer = Answer::Check(LIST_LENGTH);
    for length in 1..8 {
        let cdb = format!("C3 00 00000001 00 {length:04X} 00");
        let list = format!("01{}", "00".repeat(length - 1));
        rig.refused(1, &cdb, &list, answer, Refusal::ListBelowEight);
    }
    let why = Refusal::ListLength;
    rig.refused(
        1,
        "C3 00 00000001 00 0008 00",
        "01020304 00000000",
        answer,
        why,
    );
    rig.refused(
        1,
        REBUILD,
        "00020304 00000000 0000000000000000",
        answer,
        why,
    );
    rig.refused(
        1,
        REBUILD,
        "02010000 00000000 00000001 00000000",
        answer,
        why,
    );
    let cdb = "C4 00 00000001 00 0011 00";
    rig.refused(1, cdb, &format!("{ONE} 00"), answer, why);
}

#[test]
fn a_list_of_no_sources_is_a_bad_list() {
    let mut rig = Rig::bench();
    let (answer, why) = (Answer::Check(LIST), Refusal::NoSources);
    rig.refused(
        1,
        "C3 00 00000001 00 0008 00",
        "00010000 00000000",
        answer,
        why,
    );
    rig.refused(
        1,
        "C4 00 00000000 00 0008 00",
        "00010000 00000000",
        answer,
        why,
    );
}

#[test]
fn the_head_of_a_list_says_01_and_zeros() {
    let mut rig = Rig::bench();
    let answer = Answer::Check(LIST);
    for (head, why) in [
        ("01000000", Refusal::EntryType),
        ("01020000", Refusal::EntryType),
        ("01810000", Refusal::EntryType),
        ("01010100", Refusal::ListReserved),
        ("01010001", Refusal::ListReserved),
    ] {
        let list = format!("{head} 00000009 00000009 00000000");
        rig.refused(1, REBUILD, &list, answer, why);
        rig.refused(1, REGENERATE, &list, answer, why);
    }
}

#[test]
fn a_source_that_is_the_target_is_found_behind_an_unknown_one() {
    let mut rig = Rig::bench();
    let (answer, why) = (Answer::Check(LIST), Refusal::SourceIsTarget);
    let list = "02010000 00000000 00000009 00000000 00000001 00000000";
    rig.refused(1, REBUILD_OF_TWO, list, answer, why);
    let list = "01010000 00000009 00000001 00000000";
    rig.refused(1, REBUILD, list, answer, why);
}

#[test]
fn a_source_address_is_never_cut_to_three_bytes() {
    let mut rig = Rig::bench();
    let (answer, why) = (Answer::Check(NESTED_UNKNOWN), Refusal::SourceUnknown);
    let list = "01010000 00000000 01000001 00000000";
    rig.refused(1, REBUILD, list, answer, why);
    let list = "01010000 00000000 01000002 00000000";
    rig.refused(1, REGENERATE, list, answer, why);
}

#[test]
fn length_zero_is_good_for_every_proper_list() {
    let mut rig = Rig::bench();
    let list = "01010000 FFFFFFFF 01000009 FFFFFFFF";
    let good = Good::ZeroLengthWithList;
    for cdb in [
        "C3 00 00000000 00 0010 00",
        "C4 00 00000000 00 0010 00",
        "C3 04 00000000 00 0010 00",
        "C4 04 00000000 00 0010 00",
    ] {
        rig.good(1, cdb, list, good);
    }
    assert_eq!(rig, Rig::bench());
}

#[test]
fn length_zero_does_not_excuse_a_bad_list() {
    let mut rig = Rig::bench();
    let list = "01010000 00000000 00000001 00000000";
    let (answer, why) = (Answer::Check(LIST), Refusal::SourceIsTarget);
    rig.refused(1, "C3 00 00000000 00 0010 00", list, answer, why);
    rig.refused(1, "C4 00 00000000 00 0010 00", list, answer, why);
    let (answer, why) = (Answer::Check(LIST_LENGTH), Refusal::ListBelowEight);
    rig.refused(1, "C4 00 00000000 00 0001 00", "01", answer, why);
}

#[test]
fn the_own_range_comes_before_the_slot() {
    let mut rig = full();
    let list = "01010000 00000002 00000002 00000000";
    let (answer, why) = (Answer::Check(RANGE), Refusal::OutOfRange);
    rig.refused(1, REGENERATE, list, answer, why);
    let cdb = "C0 06 00000002 0001 000000 00000000 00";
    rig.refused(1, cdb, "FF00FF00", answer, why);
}

#[test]
fn the_slot_comes_before_the_sources() {
    let mut rig = full();
    let list = "01010000 00000000 00000009 00000000";
    rig.refused(1, REGENERATE, list, Answer::Busy, Refusal::NoEmptySlot);
    rig.refused(1, REGENERATE, ONE, Answer::Busy, Refusal::NoEmptySlot);
    let (answer, why) = (Answer::Check(NESTED_UNKNOWN), Refusal::SourceUnknown);
    rig.refused(1, REBUILD, list, answer, why);
}

#[test]
fn a_shelf_without_slots_is_busy_for_one_block_and_good_for_none() {
    let mut rig = Rig::shelf(3, 2, 4, 0, 2);
    let why = Refusal::NoEmptySlot;
    rig.refused(1, C2, "FF00FF00", Answer::Busy, why);
    rig.refused(1, REGENERATE, ONE, Answer::Busy, why);
    let cdb = "C0 06 00000000 0000 000000 00000000 00";
    rig.good(1, cdb, "", Good::ZeroLength);
    let cdb = "C4 00 00000000 00 0010 00";
    rig.good(1, cdb, ONE, Good::ZeroLengthWithList);
}

#[test]
fn nothing_to_retain_needs_no_slot() {
    let mut rig = full();
    rig.good(2, C1, "FF00FF00", Good::XorSent);
    rig.good(1, REBUILD, ONE, Good::Rebuilt);
}

#[test]
fn the_own_range_comes_before_the_secondary() {
    let mut rig = Rig::bench();
    let (answer, why) = (Answer::Check(RANGE), Refusal::OutOfRange);
    let cdb = "C0 00 00000002 0001 000009 00000000 00";
    rig.refused(1, cdb, "FF00FF00", answer, why);
    let list = "01010000 00000002 00000009 00000000";
    rig.refused(1, REBUILD, list, answer, why);
}

#[test]
fn the_first_entry_that_fails_decides() {
    let mut rig = Rig::bench();
    let list = "02010000 00000000 00000002 00000009 00000009 00000000";
    let (answer, why) = (Answer::Check(NESTED_RANGE), Refusal::SourceOutOfRange);
    rig.refused(1, REBUILD_OF_TWO, list, answer, why);
    let list = "02010000 00000000 00000009 00000000 00000002 00000009";
    let (answer, why) = (Answer::Check(NESTED_UNKNOWN), Refusal::SourceUnknown);
    rig.refused(1, REBUILD_OF_TWO, list, answer, why);
    rig.mark(3, 1);
    let list = "02010000 00000000 00000002 00000000 00000003 00000000";
    let (answer, why) = (Answer::Check(NESTED_GONE), Refusal::SourceFailed);
    rig.refused(1, REBUILD_OF_TWO, list, answer, why);
    let list = "02010000 00000000 00000009 00000000 00000003 00000000";
    let (answer, why) = (Answer::Check(NESTED_UNKNOWN), Refusal::SourceUnknown);
    rig.refused(1, REBUILD_OF_TWO, list, answer, why);
}

#[test]
fn within_an_entry_the_failed_drive_comes_before_the_range() {
    let mut rig = Rig::bench();
    rig.mark(3, 1);
    let list = "01010000 00000000 00000003 00000009";
    let (answer, why) = (Answer::Check(NESTED_GONE), Refusal::SourceFailed);
    rig.refused(1, REBUILD, list, answer, why);
    rig.refused(1, REGENERATE, list, answer, why);
    let cdb = "C0 00 00000000 0001 000003 00000009 00";
    rig.refused(1, cdb, "FF00FF00", answer, Refusal::SecondaryFailed);
}

#[test]
fn another_drives_range_ends_at_b() {
    let mut rig = Rig::bench();
    let answer = Answer::Check(NESTED_RANGE);
    let cdb = "C0 00 00000000 0001 000003 00000002 00";
    rig.refused(1, cdb, "FF00FF00", answer, Refusal::SecondaryOutOfRange);
    let cdb = "C0 00 00000000 0002 000003 00000001 00";
    let data = "FF00FF00FF00FF00";
    rig.refused(1, cdb, data, answer, Refusal::SecondaryOutOfRange);
    let list = "01010000 00000000 00000002 00000001";
    let why = Refusal::SourceOutOfRange;
    rig.refused(1, "C3 00 00000002 00 0010 00", list, answer, why);
    rig.refused(1, "C4 00 00000002 00 0010 00", list, answer, why);
}

#[test]
fn the_receive_room_comes_last() {
    let mut rig = Rig::bench();
    let out_of_range = (Answer::Check(RANGE), Refusal::OutOfRange);
    rig.refused_with_room(1, "28 00 00000002 00 0001 00", "", 0, out_of_range);
    let no_result = (Answer::Check(FIELD), Refusal::NoResult);
    rig.refused_with_room(1, "C2 00 00000000 00 0001 00", "", 0, no_result);
    let short = (Answer::Call(5), Refusal::ReceiveRoomShort);
    rig.refused_with_room(1, "28 00 00000000 00 0001 00", "", 3, short);
    rig.refused_with_room(1, "28 00 00000000 00 0002 00", "", 7, short);
}

#[test]
fn a_short_room_leaves_the_result_retained() {
    let mut rig = full();
    let cdb = "C2 00 00000000 00 0001 00";
    let short = (Answer::Call(5), Refusal::ReceiveRoomShort);
    rig.refused_with_room(1, cdb, "", 3, short);
    let outcome = rig.send(1, cdb, "", 4);
    assert_eq!((outcome.number, outcome.count), (0, Some(4)));
    assert_eq!(outcome.room, [0xF5, 0x0B, 0xF3, 0x0D]);
}
