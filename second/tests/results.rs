//! Retained results: which slot they take, which is newest, and how they go.

mod common;

use common::{hex, Answer, Rig, C2, FIELD, GONE};
use second::{Good, Refusal};

const XDREAD_1: &str = "C2 00 00000000 00 0001 00";
const XDREAD_2: &str = "C2 00 00000000 00 0002 00";
/// XDWRITE of block 0 with NDisc, one and two blocks.
const KEEP_1: &str = "C0 26 00000000 0001 000000 00000000 00";
const KEEP_2: &str = "C0 26 00000000 0002 000000 00000000 00";

/// A shelf of zeros with so many slots of two blocks, at 44, 68, 92 and so on.
fn zeros(slots: u32) -> Rig {
    Rig::shelf(3, 2, 4, slots, 2)
}

#[test]
fn the_newest_decides_even_where_an_older_one_fits() {
    let mut rig = zeros(2);
    rig.good(1, KEEP_1, "11111111", Good::XorRetainedOnly);
    rig.good(1, KEEP_2, "22222222 33333333", Good::XorRetainedOnly);
    let answer = Answer::Check(FIELD);
    rig.refused(1, XDREAD_1, "", answer, Refusal::OtherLength);
    let newest = rig.fetched(1, XDREAD_2, "", Good::FetchedXdWrite);
    assert_eq!(newest, hex("22222222 33333333"));
    let older = rig.fetched(1, XDREAD_1, "", Good::FetchedXdWrite);
    assert_eq!(older, hex("11111111"));
}

#[test]
fn the_newest_is_by_rank_and_not_by_slot() {
    let mut rig = zeros(2);
    let other_block = "C0 26 00000001 0001 000000 00000000 00";
    rig.good(1, other_block, "11111111", Good::XorRetainedOnly);
    rig.good(1, KEEP_1, "22222222", Good::XorRetainedOnly);
    let free_slot_0 = "C2 00 00000001 00 0001 00";
    rig.fetched(1, free_slot_0, "", Good::FetchedXdWrite);
    assert_eq!(rig.image[68..72], hex("00000001"), "rank falls by one");
    rig.good(1, KEEP_1, "33333333", Good::XorRetainedOnly);
    let record = "00000002 01 00 0001 00000000 00000000 33333333";
    assert_eq!(rig.image[44..64], hex(record), "slot 0 is used again");
    let newest = rig.fetched(1, XDREAD_1, "", Good::FetchedXdWrite);
    assert_eq!(newest, hex("33333333"));
    let older = rig.fetched(1, XDREAD_1, "", Good::FetchedXdWrite);
    assert_eq!(older, hex("22222222"));
    let answer = Answer::Check(FIELD);
    rig.refused(1, XDREAD_1, "", answer, Refusal::NoResult);
}

#[test]
fn a_new_result_takes_the_lowest_empty_slot() {
    let mut rig = zeros(3);
    rig.patch(44, "00000001 01 00 0001 00000000 00000000");
    rig.good(2, KEEP_1, "55555555", Good::XorRetainedOnly);
    let mut after = zeros(3);
    after.patch(44, "00000001 01 00 0001 00000000 00000000");
    after.patch(68, "00000002 01 01 0001 00000000 00000000 55555555");
    assert_eq!(rig, after);
}

#[test]
fn results_of_another_drive_or_block_do_not_match() {
    let mut rig = zeros(2);
    rig.good(1, KEEP_2, "22222222 33333333", Good::XorRetainedOnly);
    let (answer, why) = (Answer::Check(FIELD), Refusal::NoResult);
    rig.refused(2, XDREAD_2, "", answer, why);
    rig.refused(1, "C2 00 00000001 00 0001 00", "", answer, why);
    rig.refused(1, "C2 00 00000001 00 0002 00", "", answer, why);
    rig.refused(1, "C2 00 FFFFFFFF 00 0001 00", "", answer, why);
}

#[test]
fn xdread_of_length_zero_is_always_refused() {
    let mut rig = zeros(1);
    let cdb = "C2 00 00000000 00 0000 00";
    let answer = Answer::Check(FIELD);
    rig.refused(1, cdb, "", answer, Refusal::NoResult);
    rig.good(1, KEEP_1, "11111111", Good::XorRetainedOnly);
    rig.refused(1, cdb, "", answer, Refusal::OtherLength);
}

#[test]
fn the_data_of_a_slot_stays_when_its_result_goes() {
    let mut rig = zeros(1);
    rig.good(1, KEEP_2, "22222222 33333333", Good::XorRetainedOnly);
    rig.fetched(1, XDREAD_2, "", Good::FetchedXdWrite);
    assert_eq!(rig, zeros(1).with(60, "22222222 33333333"));
    rig.good(1, KEEP_1, "44444444", Good::XorRetainedOnly);
    let record = "00000001 01 00 0001 00000000 00000000 44444444 33333333";
    assert_eq!(rig, zeros(1).with(44, record));
    rig.reset(1);
    assert_eq!(rig, zeros(1).with(60, "44444444 33333333"));
}

#[test]
fn reset_closes_up_the_ranks_of_the_others() {
    let mut rig = zeros(4);
    rig.patch(44, "00000003 01 00 0001 00000000 00000000");
    rig.patch(68, "00000001 02 01 0001 00000001 00000000");
    rig.patch(92, "00000004 01 01 0002 00000000 00000000");
    rig.patch(116, "00000002 02 00 0001 00000000 00000000");
    rig.reset(1);
    let mut after = zeros(4);
    after.patch(68, "00000001 02 01 0001 00000001 00000000");
    after.patch(92, "00000002 01 01 0002 00000000 00000000");
    assert_eq!(rig, after);
    rig.reset(3);
    assert_eq!(rig, after, "drive 3 has no results");
}

#[test]
fn a_failed_drive_resets_too() {
    let mut rig = Rig::bench();
    rig.good(1, C2, "FF00FF00", Good::XorRetained);
    rig.mark(1, 1);
    rig.reset(1);
    let after = Rig::bench().with(32, "01").with(60, "F50BF30D");
    assert_eq!(rig, after.with(68, "FF00FF00"));
}

#[test]
fn a_result_outlives_the_failure_of_its_drive() {
    let mut rig = Rig::bench();
    rig.good(1, C2, "FF00FF00", Good::XorRetained);
    rig.mark(1, 1);
    let answer = Answer::Check(GONE);
    rig.refused(1, XDREAD_1, "", answer, Refusal::TargetFailed);
    rig.mark(1, 0);
    let result = rig.fetched(1, XDREAD_1, "", Good::FetchedXdWrite);
    assert_eq!(result, hex("F50BF30D"));
}

#[test]
fn a_dropped_result_leaves_its_row_open() {
    let mut rig = Rig::bench();
    rig.good(1, C2, "FF00FF00", Good::XorRetained);
    rig.reset(1);
    let listing = "drives 3 blocks 2 length 4 open 1\nrow 0 sum f50bf30d\n";
    assert_eq!(rig.listing(), listing);
    let answer = Answer::Check(FIELD);
    rig.refused(1, XDREAD_1, "", answer, Refusal::NoResult);
}

#[test]
fn two_results_of_one_block_are_carried_one_by_one() {
    let mut rig = Rig::bench_of_two_slots();
    rig.good(1, C2, "FF00FF00", Good::XorRetained);
    rig.good(1, C2, "0A0B0C0D", Good::XorRetained);
    assert_eq!(rig.image[60..64], hex("F50BF30D"));
    assert_eq!(rig.image[84..88], hex("F50BF30D"));
    let closed = "drives 3 blocks 2 length 4 open 0\n";
    assert_eq!(rig.listing(), closed);
    let open = "drives 3 blocks 2 length 4 open 1\nrow 0 sum f50bf30d\n";
    for listing in [open, closed] {
        let result = rig.fetched(1, XDREAD_1, "", Good::FetchedXdWrite);
        assert_eq!(result, hex("F50BF30D"));
        rig.good(3, "C1 00 00000000 00 0001 00", "F50BF30D", Good::XorWrite);
        assert_eq!(rig.listing(), listing);
    }
}

#[test]
fn a_result_of_regenerate_is_read_by_xdread() {
    let mut rig = Rig::bench();
    let list = "02010000 00000000 00000002 00000000 00000003 00000000";
    rig.good(1, "C4 00 00000001 00 0018 00", list, Good::Regenerated);
    let result = rig.fetched(1, XDREAD_1, "", Good::FetchedRegenerate);
    assert_eq!(result, hex("00000000"));
    assert_eq!(rig, Rig::bench());
}
