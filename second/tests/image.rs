//! Which images are shelves.

mod common;

use common::{hex, Rig};
use second::{mark, Shelf};

/// A call that is GOOD on every shelf whose first drive has address 1, so that
/// its answer tells whether the image is one.
fn is_shelf(rig: &Rig) -> bool {
    let mut image = rig.image.clone();
    let valid = match mark(&mut image, 1, 0) {
        0 => true,
        257 => false,
        other => panic!("marking answered {other}"),
    };
    assert_eq!(Shelf::read(&rig.image).is_some(), valid);
    valid
}

fn with_record(record: &str) -> Rig {
    Rig::bench().with(44, record)
}

/// Two slots at 44 and 68, B = 2, M = 2.
fn with_records(first: &str, second: &str) -> Rig {
    Rig::bench_of_two_slots().with(44, first).with(68, second)
}

#[test]
fn a_product_that_wraps_at_32_bits_is_no_shelf() {
    let mut image = hex("00000020 00010000 00000800 00000000 00000001 00000020 000000A0 000000A0");
    for address in 0..32u32 {
        image.extend(address.to_be_bytes());
    }
    assert_eq!(image.len(), 160);
    assert!(!is_shelf(&Rig { image }));
}

#[test]
fn one_byte_more_or_less_is_no_shelf() {
    let mut longer = Rig::bench();
    longer.image.push(0);
    let mut shorter = Rig::bench();
    shorter.image.pop();
    assert!(is_shelf(&Rig::bench()));
    assert!(!is_shelf(&longer));
    assert!(!is_shelf(&shorter));
}

#[test]
fn a_cut_image_is_no_shelf_at_any_length() {
    for length in 0..92 {
        let mut rig = Rig::bench();
        rig.image.truncate(length);
        assert!(!is_shelf(&rig), "{length}");
    }
}

#[test]
fn the_offsets_are_the_ones_of_the_counts() {
    for field in 5..8 {
        for change in [1, -1, 4, -4] {
            let mut rig = Rig::bench();
            let byte = &mut rig.image[4 * field + 3];
            *byte = byte.wrapping_add_signed(change);
            assert!(!is_shelf(&rig), "field {field} by {change}");
        }
    }
}

#[test]
fn each_count_has_its_limits() {
    let within = [
        (2, 1, 4, 0, 1),
        (32, 1, 4, 0, 1),
        (2, 65_536, 4, 0, 1),
        (2, 1, 4_096, 0, 1),
        (2, 1, 4, 16, 1),
        (2, 1, 4, 1, 256),
        (2, 1, 12, 0, 1),
    ];
    let beyond = [
        (1, 1, 4, 0, 1),
        (33, 1, 4, 0, 1),
        (2, 0, 4, 0, 1),
        (2, 65_537, 4, 0, 1),
        (2, 1, 0, 0, 1),
        (2, 1, 4_100, 0, 1),
        (2, 1, 2, 0, 1),
        (2, 1, 6, 0, 1),
        (2, 1, 4, 17, 1),
        (2, 1, 4, 1, 0),
        (2, 1, 4, 0, 0),
        (2, 1, 4, 1, 257),
        (2, 1, 4, 0, 257),
    ];
    for (d, b, l, s, m) in within {
        assert!(is_shelf(&Rig::shelf(d, b, l, s, m)), "{d} {b} {l} {s} {m}");
    }
    for (d, b, l, s, m) in beyond {
        assert!(!is_shelf(&Rig::shelf(d, b, l, s, m)), "{d} {b} {l} {s} {m}");
    }
}

#[test]
fn huge_counts_are_refused_without_overflow() {
    for field in 0..8 {
        let rig = Rig::bench().with(4 * field, "FFFFFFFF");
        assert!(!is_shelf(&rig), "field {field}");
    }
    let mut all = Rig::bench();
    all.patch(0, &"FF".repeat(32));
    assert!(!is_shelf(&all));
}

#[test]
fn states_are_0_or_1_and_addresses_differ() {
    assert!(is_shelf(&Rig::bench().with(40, "01")));
    assert!(!is_shelf(&Rig::bench().with(40, "02")));
    assert!(!is_shelf(&Rig::bench().with(40, "FF")));
    assert!(!is_shelf(&Rig::bench().with(40, "00 000001")));
    assert!(!is_shelf(&Rig::bench().with(40, "01 000002")));
    assert!(is_shelf(&Rig::bench().with(36, "00 000000 00 FFFFFF")));
}

#[test]
fn a_record_is_used_or_all_zero() {
    assert!(is_shelf(&with_record(
        "00000001 01 00 0001 00000000 00000000"
    )));
    assert!(is_shelf(&with_record(
        "00000001 02 02 0001 00000001 00000000"
    )));
    assert!(is_shelf(&with_record(
        "00000001 02 02 0002 00000000 00000000"
    )));
    let bad = [
        "00000001 01 00 0001 FFFFFFFF 00000000",
        "00000001 00 00 0000 00000000 00000000",
        "00000000 00 00 0000 00000000 00000001",
        "00000001 01 00 0001 00000000 00000001",
        "00000001 01 00 0001 00000000 01000000",
        "00000000 00 01 0000 00000000 00000000",
        "00000000 00 00 0001 00000000 00000000",
        "00000000 00 00 0000 00000001 00000000",
        "00000001 00 00 0001 00000000 00000000",
        "00000001 03 00 0001 00000000 00000000",
        "00000001 01 03 0001 00000000 00000000",
        "00000001 01 00 0000 00000000 00000000",
        "00000001 01 00 0003 00000000 00000000",
        "00000001 01 00 0002 00000001 00000000",
        "00000001 01 00 0001 00000002 00000000",
    ];
    for record in bad {
        assert!(!is_shelf(&with_record(record)), "{record}");
    }
}

#[test]
fn a_record_is_no_longer_than_its_slot() {
    let shelf = Rig::shelf(2, 4, 4, 1, 2);
    assert!(is_shelf(
        &shelf.with(40, "00000001 01 00 0002 00000000 00000000")
    ));
    assert!(!is_shelf(
        &shelf.with(40, "00000001 01 00 0003 00000000 00000000")
    ));
}

#[test]
fn ranks_are_1_to_k_each_once() {
    let used = |rank: &str| format!("{rank} 01 00 0001 00000000 00000000");
    let empty = "00000000 00 00 0000 00000000 00000000";
    for rank in ["00000000", "00000002", "FFFFFFFF"] {
        assert!(!is_shelf(&with_record(&used(rank))), "{rank}");
    }
    let valid = |first: &str, second: &str| is_shelf(&with_records(first, second));
    assert!(valid(&used("00000001"), &used("00000002")));
    assert!(valid(&used("00000002"), &used("00000001")));
    assert!(!valid(&used("00000001"), &used("00000003")));
    assert!(!valid(&used("00000002"), &used("00000002")));
    assert!(!valid(&used("00000001"), &used("00000001")));
    assert!(valid(empty, &used("00000001")));
    assert!(!valid(empty, &used("00000002")));
}

#[test]
fn a_failed_drive_may_hold_results() {
    let rig = with_record("00000001 01 01 0001 00000000 00000000");
    assert!(is_shelf(&rig.with(36, "01")));
}

#[test]
fn a_slot_may_be_larger_than_a_drive() {
    let rig = Rig::shelf(2, 1, 4, 1, 3);
    assert!(is_shelf(&rig));
    assert!(is_shelf(
        &rig.with(40, "00000001 01 00 0001 00000000 00000000")
    ));
    assert!(!is_shelf(
        &rig.with(40, "00000001 01 00 0002 00000000 00000000")
    ));
}

#[test]
fn the_data_of_an_empty_slot_may_be_anything() {
    assert!(is_shelf(&Rig::bench().with(60, "0123456789ABCDEF")));
}
