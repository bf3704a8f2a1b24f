//! Calls and answers as lines of text.
//!
//! ```text
//! step IMAGE TARGET CDB DATA ROOM SENSE   ->  NUMBER COUNT IMAGE ROOM SENSE
//! reset IMAGE TARGET                      ->  NUMBER IMAGE
//! mark IMAGE TARGET STATE                 ->  NUMBER IMAGE
//! rows IMAGE                              ->  TEXT
//! ```
//!
//! One space stands between two words. Bytes are two lower-case hexadecimal
//! digits each, and `-` is no bytes. TARGET and STATE are eight hexadecimal
//! digits, NUMBER and COUNT are decimal, TEXT is the bytes of the listing. In an
//! answer `=` is "unchanged", and COUNT is `-` where it was not written.

use crate::calls::{mark, reset};
use crate::case::{Call, Case, StepCall, StepOutcome};
use crate::rows::{hex, rows};

/// The answer to a line that is no call.
pub const BAD_LINE: &str = "bad line";

/// The answer to one line.
pub fn answer_line(line: &str) -> String {
    match parse_line(line) {
        Some(case) => answer(&case),
        None => BAD_LINE.to_string(),
    }
}

/// The case that a line holds.
pub fn parse_line(line: &str) -> Option<Case> {
    let words: Vec<&str> = line.split(' ').collect();
    let (image, call) = match words.as_slice() {
        ["step", image, target, cdb, data, room, sense] => {
            let step = StepCall {
                target: number_of(target)?,
                cdb: bytes_of(cdb)?,
                data: bytes_of(data)?,
                room: bytes_of(room)?,
                sense: bytes_of(sense)?,
            };
            (image, Call::Step(step))
        }
        ["reset", image, target] => {
            let target = number_of(target)?;
            (image, Call::Reset { target })
        }
        ["mark", image, target, state] => {
            let (target, state) = (number_of(target)?, number_of(state)?);
            (image, Call::Mark { target, state })
        }
        ["rows", image] => (image, Call::Rows),
        _ => return None,
    };
    let image = bytes_of(image)?;
    Some(Case { image, call })
}

/// The line that holds a case.
pub fn case_line(case: &Case) -> String {
    let image = text_of(&case.image);
    match &case.call {
        Call::Step(step) => {
            let parts = [&step.cdb, &step.data, &step.room, &step.sense];
            let parts = parts.map(|bytes| text_of(bytes)).join(" ");
            format!("step {image} {:08x} {parts}", step.target)
        }
        Call::Reset { target } => format!("reset {image} {target:08x}"),
        Call::Mark { target, state } => format!("mark {image} {target:08x} {state:08x}"),
        Call::Rows => format!("rows {image}"),
    }
}

fn answer(case: &Case) -> String {
    let mut image = case.image.clone();
    match &case.call {
        Call::Step(step) => {
            let outcome = step.run(&mut image);
            step_answer(&changed(&case.image, &image), step, &outcome)
        }
        Call::Reset { target } => {
            let number = reset(&mut image, *target);
            format!("{number} {}", changed(&case.image, &image))
        }
        Call::Mark { target, state } => {
            let number = mark(&mut image, *target, *state);
            format!("{number} {}", changed(&case.image, &image))
        }
        Call::Rows => text_of(rows(&image).as_bytes()),
    }
}

fn step_answer(image: &str, step: &StepCall, outcome: &StepOutcome) -> String {
    let number = outcome.number;
    let count = match outcome.count {
        Some(count) => count.to_string(),
        None => "-".to_string(),
    };
    let room = changed(&step.room, &outcome.room);
    let sense = changed(&step.sense, &outcome.sense);
    format!("{number} {count} {image} {room} {sense}")
}

fn changed(old: &[u8], new: &[u8]) -> String {
    if old == new {
        "=".to_string()
    } else {
        text_of(new)
    }
}

fn text_of(bytes: &[u8]) -> String {
    if bytes.is_empty() {
        "-".to_string()
    } else {
        hex(bytes)
    }
}

fn bytes_of(text: &str) -> Option<Vec<u8>> {
    if text == "-" {
        return Some(Vec::new());
    }
    let digits: Option<Vec<u8>> = text.bytes().map(digit).collect();
    let digits = digits?;
    if digits.is_empty() || !digits.len().is_multiple_of(2) {
        return None;
    }
    let pairs = digits.chunks_exact(2);
    Some(pairs.map(|pair| pair[0] << 4 | pair[1]).collect())
}

fn number_of(text: &str) -> Option<u32> {
    let bytes: [u8; 4] = bytes_of(text)?.try_into().ok()?;
    Some(u32::from_be_bytes(bytes))
}

fn digit(letter: u8) -> Option<u8> {
    match letter {
        b'0'..=b'9' => Some(letter - b'0'),
        b'a'..=b'f' => Some(letter - b'a' + 10),
        _ => None,
    }
}
