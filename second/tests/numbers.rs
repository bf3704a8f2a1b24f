//! Lengths and blocks at the edges of their fields.

mod common;

use common::{hex, Answer, Rig, FIELD, NESTED_RANGE, RANGE};
use second::{Good, Refusal};

#[test]
fn the_data_count_is_taken_of_any_length() {
    // 40000000h blocks of 4 bytes are 2^32 bytes, which wrap to none.
    let list = "01010000 00000000 00000002 00000000";
    let why = Refusal::DataCount;
    let mut rig = Rig::bench();
    rig.refused(1, "C3 04 40000000 00 0010 00", list, Answer::Call(4), why);
    rig.refused(1, "C3 04 FFFFFFFE 00 0010 00", list, Answer::Call(4), why);
}

#[test]
fn block_plus_length_may_pass_32_bits() {
    let mut rig = Rig::bench();
    let (answer, why) = (Answer::Check(RANGE), Refusal::OutOfRange);
    rig.refused(1, "28 00 FFFFFFFF 00 0001 00", "", answer, why);
    rig.refused(1, "2A 00 FFFFFFFF 00 0001 00", "FF00FF00", answer, why);
    for code in ["C1", "50", "51", "53"] {
        let cdb = format!("{code} 00 FFFFFFFF 00 0001 00");
        rig.refused(1, &cdb, "FF00FF00", answer, why);
    }
    let cdb = "C0 00 FFFFFFFF 0001 000003 00000000 00";
    rig.refused(1, cdb, "FF00FF00", answer, why);
    let list = "01010000 FFFFFFFF 00000002 00000000";
    rig.refused(1, "C3 00 00000001 00 0010 00", list, answer, why);
    rig.refused(1, "C4 00 00000001 00 0010 00", list, answer, why);
}

#[test]
fn another_drives_block_plus_length_may_pass_32_bits() {
    let mut rig = Rig::bench();
    let answer = Answer::Check(NESTED_RANGE);
    let cdb = "C0 00 00000000 0001 000003 FFFFFFFF 00";
    rig.refused(1, cdb, "FF00FF00", answer, Refusal::SecondaryOutOfRange);
    let list = "01010000 00000000 00000002 FFFFFFFF";
    let why = Refusal::SourceOutOfRange;
    rig.refused(1, "C3 00 00000001 00 0010 00", list, answer, why);
    rig.refused(1, "C4 00 00000001 00 0010 00", list, answer, why);
}

#[test]
fn rebuild_to_the_end_from_beyond_it_is_out_of_range() {
    let mut rig = Rig::bench();
    let (answer, why) = (Answer::Check(RANGE), Refusal::EndOutOfRange);
    for own in ["00000002", "00000003", "FFFFFFFF"] {
        let list = format!("01010000 {own} 00000002 00000000");
        rig.refused(1, "C3 00 FFFFFFFF 00 0010 00", &list, answer, why);
    }
}

#[test]
fn rebuild_to_the_end_works_with_the_resolved_length() {
    let mut rig = Rig::bench();
    let list = "01010000 00000001 00000002 00000000";
    let cdb = "C3 00 FFFFFFFF 00 0010 00";
    rig.good(1, cdb, list, Good::RebuiltToTheEnd);
    assert_eq!(rig, Rig::bench().with(72, "01020304"));
    let mut rig = Rig::bench();
    let list = "01010000 00000000 00000002 00000001";
    let answer = Answer::Check(NESTED_RANGE);
    rig.refused(1, cdb, list, answer, Refusal::SourceOutOfRange);
}

#[test]
fn rebuild_to_the_end_may_be_65536_blocks() {
    let mut rig = Rig::shelf(2, 65_536, 4, 0, 1);
    let second_drive = 40 + 4 * 65_536;
    rig.patch(second_drive, "11223344");
    rig.patch(second_drive + 4 * 65_535, "55667788");
    let list = "01010000 00000000 00000002 00000000";
    let cdb = "C3 00 FFFFFFFF 00 0010 00";
    rig.good(1, cdb, list, Good::RebuiltToTheEnd);
    assert_eq!(rig.image[40..44], hex("11223344"));
    assert_eq!(rig.image[second_drive - 4..second_drive], hex("55667788"));
    assert_eq!(rig.listing(), "drives 2 blocks 65536 length 4 open 0\n");
}

#[test]
fn regenerate_has_no_length_to_the_end() {
    let list = "01010000 00000000 00000002 00000000";
    let (answer, why) = (Answer::Check(FIELD), Refusal::LengthAboveSlot);
    Rig::bench().refused(1, "C4 00 FFFFFFFF 00 0010 00", list, answer, why);
}

#[test]
fn byte_6_of_xdwrite_is_length() {
    let mut rig = Rig::shelf(2, 256, 4, 1, 256);
    let data = "5A".repeat(1_024);
    let cdb = "C0 06 00000000 0100 000000 00000000 00";
    rig.good(1, cdb, &data, Good::XorRetained);
    let record = "00000001 01 00 0100 00000000 00000000";
    assert_eq!(rig.image[40..56], hex(record));
    assert_eq!(rig.image[56..56 + 1_024], hex(&data));
}

#[test]
fn byte_7_of_the_published_codes_is_length() {
    let mut rig = Rig::shelf(2, 256, 64, 1, 256);
    let data = "0123456789ABCDEF".repeat(2_048);
    let cdb = "50 04 00000000 00 0100 00";
    rig.good(1, cdb, &data, Good::XorRetainedOnly);
    let record = "00000001 01 00 0100 00000000 00000000";
    assert_eq!(rig.image[40..56], hex(record));
    for (cdb, sent) in [
        ("52 00 00000000 00 0100 00", ""),
        ("53 04 00000000 00 0100 00", data.as_str()),
    ] {
        let outcome = rig.send(1, cdb, sent, 16_384);
        assert_eq!((outcome.number, outcome.count), (0, Some(16_384)), "{cdb}");
        assert!(outcome.room == hex(&data), "{cdb}");
    }
    rig.good(1, "51 00 00000000 00 0100 00", &data, Good::XorWrite);
    let media = rig.image.len() - 32_768;
    assert!(rig.image[media..media + 16_384] == hex(&data));
}

#[test]
fn the_limit_of_a_slot_binds_six_commands() {
    let mut rig = Rig::shelf(2, 4, 4, 1, 1);
    let (answer, why) = (Answer::Check(FIELD), Refusal::LengthAboveSlot);
    let data = "0123456789ABCDEF";
    let list = "01010000 00000000 00000002 00000000";
    let cdb = "C0 00 00000000 0002 000002 00000000 00";
    rig.refused(1, cdb, data, answer, why);
    let cdb = "C0 06 00000000 0002 000002 00000000 00";
    rig.refused(1, cdb, data, answer, why);
    for code in ["C1", "50", "51", "53"] {
        let cdb = format!("{code} 00 00000000 00 0002 00");
        rig.refused(1, &cdb, data, answer, why);
    }
    rig.refused(1, "C4 00 00000002 00 0010 00", list, answer, why);
}

#[test]
fn write_read_and_rebuild_may_be_longer_than_a_slot() {
    let mut rig = Rig::shelf(2, 4, 4, 1, 1);
    let data = "0123456789ABCDEF";
    rig.good(1, "2A 00 00000001 00 0002 00", data, Good::Write);
    let list = "01010000 00000001 00000001 00000001";
    rig.good(2, "C3 00 00000002 00 0010 00", list, Good::Rebuilt);
    let read = rig.fetched(2, "28 00 00000000 00 0004 00", "", Good::Read);
    assert_eq!(read, hex("00000000 0123456789ABCDEF 00000000"));
}

#[test]
fn a_length_of_65535_blocks_is_taken_whole() {
    let mut rig = Rig::bench();
    let (answer, why) = (Answer::Check(RANGE), Refusal::OutOfRange);
    rig.refused(1, "28 00 00000000 00 FFFF 00", "", answer, why);
    let why = Refusal::LengthAboveSlot;
    let answer = Answer::Check(FIELD);
    for code in ["C1", "50", "51", "53"] {
        for length in ["FFFF", "FF00", "0100"] {
            let cdb = format!("{code} 00 00000000 00 {length} 00");
            rig.refused(1, &cdb, "", answer, why);
        }
    }
}
