//! Check 4: which bits may be one.

mod common;

use common::{Answer, Rig, FIELD};
use second::{Good, Refusal};

/// Each code with the bits of byte 1 that must be zero.
const RESERVED: [(&str, u8); 11] = [
    ("C0", 0b1000_0001),
    ("C1", 0b1110_0111),
    ("C2", 0b1111_1111),
    ("C3", 0b1111_1000),
    ("C4", 0b1111_1000),
    ("28", 0b1110_0111),
    ("2A", 0b1110_0111),
    ("50", 0b1110_0011),
    ("51", 0b1110_0111),
    ("52", 0b1111_1111),
    ("53", 0b1110_0011),
];

/// A CDB of a code that is GOOD with zero length and no list, but for C2h and 52h.
fn cdb(code: &str, byte1: u8, byte6: u8, control: u8) -> String {
    if code == "C0" {
        return format!("C0 {byte1:02X} 00000000 0000 000003 00000000 {control:02X}");
    }
    format!("{code} {byte1:02X} 00000000 {byte6:02X} 0000 {control:02X}")
}

#[test]
fn every_reserved_bit_of_byte_1_is_refused() {
    let (answer, why) = (Answer::Check(FIELD), Refusal::ReservedByte1);
    for (code, reserved) in RESERVED {
        for bit in (0..8).map(|place| 1 << place) {
            if reserved & bit != 0 {
                Rig::bench().refused(1, &cdb(code, bit, 0, 0), "", answer, why);
            }
        }
    }
}

#[test]
fn every_bit_of_byte_6_is_refused_in_a_10_byte_command() {
    let (answer, why) = (Answer::Check(FIELD), Refusal::ReservedByte6);
    for (code, _) in RESERVED.into_iter().filter(|(code, _)| *code != "C0") {
        for bit in (0..8).map(|place| 1 << place) {
            Rig::bench().refused(1, &cdb(code, 0, bit, 0), "", answer, why);
        }
    }
}

#[test]
fn every_bit_of_the_control_byte_is_refused() {
    let (answer, why) = (Answer::Check(FIELD), Refusal::ControlByte);
    for (code, _) in RESERVED {
        for bit in (0..8).map(|place| 1 << place) {
            Rig::bench().refused(1, &cdb(code, 0, 0, bit), "", answer, why);
        }
    }
}

#[test]
fn dpo_and_fua_are_ignored() {
    for byte1 in [0x08, 0x10, 0x18] {
        for code in ["C0", "C1", "28", "2A", "50", "51", "53"] {
            Rig::bench().good(1, &cdb(code, byte1, 0, 0), "", Good::ZeroLength);
        }
        let mut rig = Rig::bench();
        let write = format!("2A {byte1:02X} 00000000 00 0001 00");
        rig.good(1, &write, "FF00FF00", Good::Write);
        assert_eq!(rig, Rig::bench().with(68, "FF00FF00"));
    }
}

#[test]
fn disable_write_is_a_bit_of_50h_and_53h() {
    for byte1 in [0x04, 0x0C, 0x14, 0x1C] {
        for code in ["50", "53"] {
            Rig::bench().good(1, &cdb(code, byte1, 0, 0), "", Good::ZeroLength);
        }
    }
}

#[test]
fn sec_ctl_01_is_refused_for_lack_of_a_second_port() {
    let (answer, why) = (Answer::Check(FIELD), Refusal::OtherPort);
    Rig::bench().refused(1, &cdb("C0", 0x02, 0, 0), "", answer, why);
    Rig::bench().refused(1, &cdb("C3", 0x01, 0, 0), "", answer, why);
    Rig::bench().refused(1, &cdb("C4", 0x01, 0, 0), "", answer, why);
}

#[test]
fn sec_ctl_11_is_for_xdwrite_alone() {
    let (answer, why) = (Answer::Check(FIELD), Refusal::RetainInList);
    Rig::bench().refused(1, &cdb("C3", 0x03, 0, 0), "", answer, why);
    Rig::bench().refused(1, &cdb("C4", 0x03, 0, 0), "", answer, why);
    Rig::bench().good(1, &cdb("C0", 0x06, 0, 0), "", Good::ZeroLength);
}

#[test]
fn ndisc_goes_with_sec_ctl_11_alone() {
    let (answer, why) = (Answer::Check(FIELD), Refusal::NDiscWithoutRetain);
    Rig::bench().refused(1, &cdb("C0", 0x20, 0, 0), "", answer, why);
    Rig::bench().refused(1, &cdb("C0", 0x24, 0, 0), "", answer, why);
    Rig::bench().good(1, &cdb("C0", 0x26, 0, 0), "", Good::ZeroLength);
}

#[test]
fn sec_ctl_10_sends_and_reads_as_00_does() {
    let mut rig = Rig::bench();
    let cdb = "C0 04 00000000 0001 000003 00000000 00";
    rig.good(1, cdb, "FF00FF00", Good::XorSent);
    assert_eq!(rig, Rig::bench().with(68, "FF00FF00").with(84, "FE02FC04"));
    let mut rig = Rig::bench().with(68, "00000000");
    let list = "02010000 00000000 00000002 00000000 00000003 00000000";
    rig.good(1, "C3 02 00000001 00 0018 00", list, Good::Rebuilt);
    assert_eq!(rig, Rig::bench());
}

#[test]
fn the_secondary_is_not_the_target() {
    let (answer, why) = (Answer::Check(FIELD), Refusal::SecondaryIsTarget);
    for byte1 in ["00", "04", "40", "44"] {
        let cdb = format!("C0 {byte1} 00000000 0001 000001 00000001 00");
        Rig::bench().refused(1, &cdb, "FF00FF00", answer, why);
    }
}

#[test]
fn the_secondary_fields_are_ignored_with_sec_ctl_11() {
    for fields in ["000001 00000000", "000009 FFFFFFFF", "FFFFFF 00000002"] {
        let mut rig = Rig::bench();
        let cdb = format!("C0 06 00000000 0001 {fields} 00");
        rig.good(1, &cdb, "FF00FF00", Good::XorRetained);
        let record = "00000001 01 00 0001 00000000 00000000 F50BF30D";
        assert_eq!(rig, Rig::bench().with(68, "FF00FF00").with(44, record));
    }
}
