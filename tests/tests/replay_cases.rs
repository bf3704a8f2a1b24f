//! The stored cases of the program `replay`: each refusal and each kind of GOOD three times for
//! each command that it can come to, and no line longer than 1,000 characters. The files are
//! `second cases 2001 40000 | second pick 3 1000` and what `second answer` says to it.

use second::{parse_line, Way};
use std::collections::BTreeMap;

const CASES: &str = include_str!("../replay/cases.txt");
const EXPECTED: &str = include_str!("../replay/expected.txt");

#[test]
fn both_implementations_answer_as_stored() {
    assert_eq!(CASES.lines().count(), EXPECTED.lines().count());
    for (line, expected) in CASES.lines().zip(EXPECTED.lines()) {
        assert_eq!(second::answer_line(line), expected, "second: {line}");
        assert_eq!(shelf_tests::answer_line(line), expected, "C: {line}");
    }
}

#[test]
fn every_way_to_decide_a_call_is_there_three_times() {
    let mut seen: BTreeMap<Way, u32> = BTreeMap::new();
    for line in CASES.lines() {
        assert!(line.len() <= 1_000, "{line}");
        let case = parse_line(line).expect("a case");
        let way = Way::of(&case.call, &case.image).expect("a call with checks");
        *seen.entry(way).or_default() += 1;
    }
    let all: BTreeMap<Way, u32> = Way::all().into_iter().map(|way| (way, 3)).collect();
    assert_eq!(seen, all);
}
