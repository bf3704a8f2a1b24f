//! 2,000 recorded calls with their answers, in the line format of the program.
//! They were recorded when 50h to 53h were unknown codes; the answers of lines
//! 185, 225, 572, 1805 and 1968 are those of A1 since.

use second::{answer_line, case_line, parse_line};

const CASES: &str = include_str!("vectors/cases.txt");
const EXPECTED: &str = include_str!("vectors/expected.txt");

#[test]
fn every_recorded_call_has_its_recorded_answer() {
    assert_eq!(CASES.lines().count(), 2_000);
    assert_eq!(EXPECTED.lines().count(), 2_000);
    for (number, (case, expected)) in CASES.lines().zip(EXPECTED.lines()).enumerate() {
        assert_eq!(answer_line(case), expected, "line {}: {case}", number + 1);
    }
}

#[test]
fn every_recorded_call_is_written_as_it_is_read() {
    for line in CASES.lines() {
        let case = parse_line(line).expect("a case");
        assert_eq!(case_line(&case), line);
    }
}
