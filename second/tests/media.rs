//! What the commands write to the media.

mod common;

use common::{hex, Answer, Rig, C2};
use second::{Good, Refusal};

#[test]
fn mirror_sends_the_data_itself() {
    let mut rig = Rig::bench();
    let cdb = "C0 40 00000000 0001 000003 00000001 00";
    rig.good(1, cdb, "FF00FF00", Good::MirrorSent);
    assert_eq!(rig, Rig::bench().with(68, "FF00FF00").with(88, "FF00FF00"));
}

#[test]
fn mirror_with_sec_ctl_11_writes_and_retains_the_data() {
    let mut rig = Rig::bench();
    let cdb = "C0 46 00000000 0001 000000 00000000 00";
    rig.good(1, cdb, "FF00FF00", Good::MirrorRetained);
    let record = "00000001 01 00 0001 00000000 00000000 FF00FF00";
    assert_eq!(rig, Rig::bench().with(68, "FF00FF00").with(44, record));
    let listing = "drives 3 blocks 2 length 4 open 1\nrow 0 sum f50bf30d\n";
    assert_eq!(rig.listing(), listing);
}

#[test]
fn ndisc_retains_and_writes_nothing() {
    let mut rig = Rig::bench();
    let cdb = "C0 26 00000000 0001 000000 00000000 00";
    rig.good(1, cdb, "FF00FF00", Good::XorRetainedOnly);
    let record = "00000001 01 00 0001 00000000 00000000 F50BF30D";
    assert_eq!(rig, Rig::bench().with(44, record));
    let mut rig = Rig::bench();
    let cdb = "C0 66 00000000 0001 000000 00000000 00";
    rig.good(1, cdb, "FF00FF00", Good::MirrorRetainedOnly);
    let record = "00000001 01 00 0001 00000000 00000000 FF00FF00";
    assert_eq!(rig, Rig::bench().with(44, record));
}

#[test]
fn a_busy_xdwrite_writes_nothing() {
    let mut rig = Rig::bench();
    rig.good(2, C2, "00000000", Good::XorRetained);
    let cdb = "C0 46 00000000 0001 000000 00000000 00";
    rig.refused(1, cdb, "FF00FF00", Answer::Busy, Refusal::NoEmptySlot);
}

#[test]
fn xdwrite_of_two_blocks_works_block_by_block() {
    let mut rig = Rig::bench();
    let cdb = "C0 00 00000000 0002 000003 00000000 00";
    rig.good(1, cdb, "FF00FF00 12345678", Good::XorSent);
    let after = Rig::bench().with(68, "FF00FF00 12345678");
    assert_eq!(rig, after.with(84, "FE02FC04 12345678"));
}

#[test]
fn xpwrite_xors_the_data_in() {
    let mut rig = Rig::bench();
    rig.good(3, "C1 00 00000000 00 0001 00", "FF00FF00", Good::XorWrite);
    assert_eq!(rig, Rig::bench().with(84, "F409F009"));
    rig.good(3, "C1 00 00000000 00 0001 00", "FF00FF00", Good::XorWrite);
    assert_eq!(rig, Rig::bench());
}

#[test]
fn write_and_read_go_to_the_named_blocks() {
    let mut rig = Rig::bench();
    rig.good(2, "2A 00 00000001 00 0001 00", "CAFEF00D", Good::Write);
    assert_eq!(rig, Rig::bench().with(80, "CAFEF00D"));
    let read = rig.fetched(2, "28 00 00000000 00 0002 00", "", Good::Read);
    assert_eq!(read, hex("01020304 CAFEF00D"));
}

#[test]
fn a_source_twice_at_one_block_cancels() {
    let mut rig = Rig::bench();
    let list = "02010000 00000000 00000002 00000000 00000002 00000000";
    rig.good(1, "C3 00 00000001 00 0018 00", list, Good::Rebuilt);
    assert_eq!(rig, Rig::bench().with(68, "00000000"));
}

#[test]
fn intermediate_data_is_one_more_operand() {
    let list = "02010000 00000000 00000002 00000000 00000002 00000000";
    let data = format!("{list} FFFFFFFF");
    let mut rig = Rig::bench();
    let cdb = "C4 04 00000001 00 0018 00";
    rig.good(1, cdb, &data, Good::RegeneratedWithData);
    let record = "00000001 02 00 0001 00000000 00000000 F5F4F3F2";
    assert_eq!(rig, Rig::bench().with(44, record));
    let mut rig = Rig::bench();
    let cdb = "C3 04 00000001 00 0018 00";
    rig.good(1, cdb, &data, Good::RebuiltWithData);
    assert_eq!(rig, Rig::bench().with(68, "FFFFFFFF"));
}

#[test]
fn rebuild_does_not_count_its_target() {
    let mut rig = Rig::bench().with(68, "12345678");
    let list = "02010000 00000000 00000002 00000000 00000003 00000000";
    rig.good(1, "C3 00 00000001 00 0018 00", list, Good::Rebuilt);
    assert_eq!(rig, Rig::bench());
}

#[test]
fn one_drive_may_be_a_source_at_two_overlapping_ranges() {
    let mut rig = Rig::shelf(2, 4, 4, 0, 1);
    rig.patch(56, "01000000 02000000 04000000 08000000");
    let list = "02010000 00000002 00000002 00000000 00000002 00000001";
    rig.good(1, "C3 00 00000002 00 0018 00", list, Good::Rebuilt);
    assert_eq!(
        rig.image[40..56],
        hex("00000000 00000000 03000000 06000000")
    );
}

#[test]
fn sources_may_stand_at_other_blocks_than_the_target() {
    let mut rig = Rig::bench();
    let list = "02010000 00000001 00000003 00000000 00000002 00000000";
    rig.good(1, "C3 00 00000001 00 0018 00", list, Good::Rebuilt);
    assert_eq!(rig, Rig::bench().with(72, "0A0B0C0D"));
}

/// Four drives of four blocks whose rows all have a zero sum; M is 1.
fn closed() -> Rig {
    let mut rig = Rig::shelf(4, 4, 4, 1, 1);
    let media = 48 + 20;
    rig.patch(media, "01020304 05060708 090A0B0C 0D0E0F10");
    rig.patch(media + 16, "11223344 55667788 99AABBCC DDEEFF00");
    rig.patch(media + 32, "CAFEBABE 00000000 12345678 FFFFFFFF");
    for byte in 0..16 {
        let sum = (0..3).fold(0, |sum, drive| sum ^ rig.image[media + 16 * drive + byte]);
        rig.image[media + 48 + byte] = sum;
    }
    assert_eq!(rig.listing(), "drives 4 blocks 4 length 4 open 0\n");
    rig
}

#[test]
fn rebuild_restores_every_drive_of_a_closed_shelf() {
    for target in 1..=4u32 {
        for (length, good) in [
            ("00000003", Good::Rebuilt),
            ("FFFFFFFF", Good::RebuiltToTheEnd),
        ] {
            let mut rig = closed();
            let write = "2A 00 00000001 00 0003 00";
            rig.good(target, write, &"A5".repeat(12), Good::Write);
            assert_ne!(rig, closed());
            let mut list = "03010000 00000001".to_string();
            for source in (1..=4).rev().filter(|source| *source != target) {
                list += &format!("{source:08X} 00000001");
            }
            let cdb = format!("C3 02 {length} 00 0020 00");
            rig.good(target, &cdb, &list, good);
            assert_eq!(rig, closed());
        }
    }
}

#[test]
fn rebuild_on_two_drives_is_a_copy() {
    let mut rig = Rig::shelf(2, 2, 4, 0, 1);
    rig.patch(48, "01020304 05060708");
    let list = "01010000 00000000 00000002 00000000";
    rig.good(1, "C3 00 00000002 00 0010 00", list, Good::Rebuilt);
    assert_eq!(rig.image[40..], hex("01020304 05060708 01020304 05060708"));
}

#[test]
fn a_list_may_have_255_sources() {
    let mut rig = Rig::bench();
    let mut list = "FF010000 00000000".to_string();
    for _ in 0..255 {
        list += "00000002 00000000";
    }
    rig.good(1, "C3 00 00000001 00 0800 00", &list, Good::Rebuilt);
    assert_eq!(rig, Rig::bench().with(68, "01020304"));
    let unknown = list[..list.len() - 17].to_string() + "00000009 00000000";
    let answer = Answer::Check(common::NESTED_UNKNOWN);
    let cdb = "C3 00 00000001 00 0800 00";
    rig.refused(1, cdb, &unknown, answer, Refusal::SourceUnknown);
}
