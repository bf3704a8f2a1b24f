//! C1 to C11: each starts from the bench shelf and tells every byte after it.

mod common;

use common::{hex, Answer, Rig, BENCH, C1, C2, FIELD, NESTED_GONE, RANGE};
use second::{rows, Good, Refusal};

/// Offset of the one slot.
const SLOT: usize = 44;
/// Offsets of block 0 of drives 1 and 3.
const DRIVE_1: usize = 68;
const DRIVE_3: usize = 84;

/// The bench shelf after C2.
fn after_c2() -> Rig {
    let mut rig = Rig::bench();
    rig.good(1, C2, "FF00FF00", Good::XorRetained);
    rig
}

#[test]
fn the_bench_is_laid_out_as_its_counts_say() {
    assert_eq!(hex(BENCH).len(), 92);
    assert_eq!(rows(&hex(BENCH)), "drives 3 blocks 2 length 4 open 0\n");
}

#[test]
fn c1_writes_the_data_and_the_parity() {
    let mut rig = Rig::bench();
    rig.good(1, C1, "FF00FF00", Good::XorSent);
    let after = Rig::bench()
        .with(DRIVE_1, "FF00FF00")
        .with(DRIVE_3, "FE02FC04");
    assert_eq!(rig, after);
}

#[test]
fn c2_retains_the_result_and_leaves_drive_3() {
    let after = Rig::bench()
        .with(DRIVE_1, "FF00FF00")
        .with(SLOT, "00000001 01 00 0001 00000000 00000000 F50BF30D");
    assert_eq!(after_c2(), after);
}

#[test]
fn c2_opens_a_row_in_the_listing() {
    let listing = "drives 3 blocks 2 length 4 open 1\nrow 0 sum f50bf30d\n";
    assert_eq!(rows(&after_c2().image), listing);
}

#[test]
fn c3_carries_the_result_to_the_parity() {
    let mut rig = after_c2();
    let result = rig.fetched(1, "C2 00 00000000 00 0001 00", "", Good::FetchedXdWrite);
    assert_eq!(result, hex("F50BF30D"));
    let read = Rig::bench()
        .with(DRIVE_1, "FF00FF00")
        .with(SLOT + 16, "F50BF30D");
    assert_eq!(rig, read);
    rig.good(3, "C1 00 00000000 00 0001 00", "F50BF30D", Good::XorWrite);
    assert_eq!(rig, read.with(DRIVE_3, "FE02FC04"));
    assert_eq!(rig.listing(), "drives 3 blocks 2 length 4 open 0\n");
}

#[test]
fn c4_the_second_result_finds_no_slot() {
    let mut rig = after_c2();
    rig.refused(1, C2, "FF00FF00", Answer::Busy, Refusal::NoEmptySlot);
}

#[test]
fn c5_another_length_leaves_the_result_retained() {
    let mut rig = after_c2();
    let cdb = "C2 00 00000000 00 0002 00";
    rig.refused(1, cdb, "", Answer::Check(FIELD), Refusal::OtherLength);
    let result = rig.fetched(1, "C2 00 00000000 00 0001 00", "", Good::FetchedXdWrite);
    assert_eq!(result, hex("F50BF30D"));
}

#[test]
fn c6_ndisc_needs_sec_ctl_11() {
    let cdb = "C0 20 00000000 0001 000003 00000000 00";
    let why = Refusal::NDiscWithoutRetain;
    Rig::bench().refused(1, cdb, "FF00FF00", Answer::Check(FIELD), why);
}

#[test]
fn c7_rebuild_brings_drive_1_back() {
    let mut rig = Rig::bench().with(DRIVE_1, "00000000");
    let list = "02 01 0000 00000000  00000002 00000000  00000003 00000000";
    rig.good(1, "C3 00 00000001 00 0018 00", list, Good::Rebuilt);
    assert_eq!(rig, Rig::bench());
}

#[test]
fn c8_regenerate_retains_what_drive_1_holds() {
    let mut rig = Rig::bench();
    let list = "01 01 0000 00000000  00000003 00000000";
    rig.good(2, "C4 00 00000001 00 0010 00", list, Good::Regenerated);
    let record = "00000001 02 01 0001 00000000 00000000 0A0B0C0D";
    assert_eq!(rig, Rig::bench().with(SLOT, record));
}

#[test]
fn c9_a_failed_secondary_stops_the_write() {
    let mut rig = Rig::bench();
    rig.mark(3, 1);
    let answer = Answer::Check(NESTED_GONE);
    rig.refused(1, C1, "FF00FF00", answer, Refusal::SecondaryFailed);
    assert_eq!(rig, Rig::bench().with(40, "01"));
}

#[test]
fn c10_reads_to_the_last_block_and_no_further() {
    let mut rig = Rig::bench();
    let read = rig.fetched(1, "28 00 00000001 00 0001 00", "", Good::Read);
    assert_eq!(read, hex("00000000"));
    assert_eq!(rig, Rig::bench());
    let cdb = "28 00 00000001 00 0002 00";
    rig.refused(1, cdb, "", Answer::Check(RANGE), Refusal::OutOfRange);
}

#[test]
fn c11_length_zero_is_good_at_any_block() {
    let mut rig = Rig::bench();
    rig.good(1, "C1 00 00000009 00 0000 00", "", Good::ZeroLength);
    assert_eq!(rig, Rig::bench());
}
