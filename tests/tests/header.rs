//! `include/shelf.h` says what these tests link and compare.

extern crate shelf_tests as second;

#[path = "../../second/tests/common/mod.rs"]
mod common;

use common::Rig;
use second::{Refusal, SENSE_SIZE};
use std::collections::BTreeSet;

const HEADER: &str = include_str!("../../include/shelf.h");

/// The number that a macro of the header stands for.
fn defined(name: &str) -> u32 {
    let lines = HEADER.lines().map(|line| line.split_whitespace());
    let numbers: Vec<&str> = lines
        .filter_map(|mut words| match (words.next(), words.next()) {
            (Some("#define"), Some(word)) if word == name => words.next(),
            _ => None,
        })
        .collect();
    assert_eq!(numbers.len(), 1, "{name} is not defined once");
    let read = match numbers[0].strip_prefix("0x") {
        Some(digits) => u32::from_str_radix(digits, 16),
        None => numbers[0].parse(),
    };
    read.expect("a number")
}

/// The codes that the library knows: one alone is call 3 where it is known.
fn known_codes() -> Vec<u8> {
    let known = |code: &u8| Rig::bench().send(1, &format!("{code:02X}"), "", 0).number == 259;
    (0..=0xFF).filter(known).collect()
}

#[test]
fn the_numbers_are_those_of_the_answers() {
    for (name, refusal) in [
        ("SHELF_CHECK_CONDITION", Refusal::UnknownCode),
        ("SHELF_BUSY", Refusal::NoEmptySlot),
        ("SHELF_BAD_IMAGE", Refusal::NotAShelf),
        ("SHELF_BAD_TARGET", Refusal::NoSuchTarget),
        ("SHELF_BAD_CDB", Refusal::EmptyCdb),
        ("SHELF_BAD_DATA", Refusal::DataCount),
        ("SHELF_SHORT_ROOM", Refusal::SenseRoomShort),
        ("SHELF_BAD_STATE", Refusal::BadState),
    ] {
        assert_eq!(defined(name), refusal.number(), "{name}");
    }
    assert_eq!(defined("SHELF_GOOD"), 0);
    assert_eq!(defined("SHELF_SENSE_SIZE") as usize, SENSE_SIZE);
}

#[test]
fn the_table_of_commands_has_the_known_codes() {
    let lines = HEADER.lines();
    let table = lines
        .skip_while(|line| !line.contains("what it does"))
        .skip(1)
        .take_while(|line| line.len() > 2);
    let mut listed: Vec<u8> = table
        .flat_map(|line| line[..40].split_whitespace())
        .filter_map(|word| word.strip_suffix('h'))
        .map(|code| u8::from_str_radix(code, 16).expect("a code"))
        .collect();
    listed.sort_unstable();
    listed.dedup();
    assert_eq!(listed, known_codes());
}

/// The names of the macros whose numbers are written in hexadecimal: the operation codes.
fn code_names() -> Vec<&'static str> {
    HEADER
        .lines()
        .filter_map(|line| line.strip_prefix("#define "))
        .filter(|line| line.contains(" 0x"))
        .map(|line| line.split_whitespace().next().expect("a name"))
        .collect()
}

#[test]
fn the_macros_of_codes_are_the_known_codes() {
    let mut codes: Vec<u8> = code_names()
        .iter()
        .map(|name| defined(name) as u8)
        .collect();
    codes.sort_unstable();
    assert_eq!(codes, known_codes());
}

/// A published code and those of READ and WRITE bear their CDB's length, as SBC writes them.
#[test]
fn the_macros_have_the_names_of_the_table() {
    for name in code_names() {
        let code = defined(name);
        let plain = name.strip_prefix("SHELF_").expect("the prefix");
        let spoken = match plain.strip_suffix("_10") {
            Some(start) => format!("{code:02X}h  {start}(10) "),
            None => format!("{code:02X}h  {plain} "),
        };
        assert!(HEADER.contains(&spoken), "{name} as {spoken}");
    }
}

/// Key, code and qualifier of each line of the header's table of senses, of the target's own
/// ones or of the nested ones.
fn listed_senses(nested: bool) -> BTreeSet<[u8; 3]> {
    let table = HEADER
        .lines()
        .skip_while(|line| !line.contains("Every sense that there is"))
        .skip(2)
        .take_while(|line| line.len() > 2);
    let lines: Vec<&str> = table.collect();
    let half = lines.iter().position(|line| line.contains("nested"));
    let (own, inner) = lines.split_at(half.expect("a nested sense"));
    let lines = if nested { inner } else { own };
    lines
        .iter()
        .flat_map(|line| line.split_whitespace())
        .filter_map(triple)
        .collect()
}

/// The numbers of a word such as 05h/20h/00h.
fn triple(word: &str) -> Option<[u8; 3]> {
    let numbers: Option<Vec<u8>> = word
        .split('/')
        .map(|part| u8::from_str_radix(part.strip_suffix('h')?, 16).ok())
        .collect();
    numbers?.try_into().ok()
}

#[test]
fn the_table_of_senses_has_every_sense() {
    let (mut own, mut inner) = (BTreeSet::new(), BTreeSet::new());
    for refusal in Refusal::ALL {
        let sense = refusal.sense();
        let at = |start: usize| [sense[start + 2], sense[start + 12], sense[start + 13]];
        match sense.len() {
            0 => {}
            18 => {
                own.insert(at(0));
            }
            nested => {
                assert_eq!(at(0), [0x0B, 0, 0], "{refusal:?}");
                inner.insert(at(nested - 18));
            }
        }
    }
    assert_eq!(listed_senses(false), own);
    assert_eq!(listed_senses(true), inner);
}

#[test]
fn the_functions_are_declared_as_they_are_linked() {
    let words: Vec<&str> = HEADER.split_whitespace().collect();
    let text = words.join(" ");
    for function in [
        "uint32_t shelf_step(uint8_t *image, size_t image_len, uint32_t target, \
         const uint8_t *cdb, size_t cdb_len, const uint8_t *data, size_t data_len, \
         uint8_t *room, size_t room_len, uint8_t *sense, size_t sense_len, uint32_t *count);",
        "uint32_t shelf_reset(uint8_t *image, size_t image_len, uint32_t target);",
        "uint32_t shelf_mark(uint8_t *image, size_t image_len, uint32_t target, uint32_t state);",
        "void shelf_xor(uint8_t *into, size_t into_len, const uint8_t *from, size_t from_len);",
        "void shelf_xor_four(uint8_t *into, size_t into_len, const uint8_t *a, size_t a_len, \
         const uint8_t *b, size_t b_len, const uint8_t *c, size_t c_len, const uint8_t *d, size_t d_len);",
    ] {
        assert!(text.contains(function), "{function}");
    }
}
