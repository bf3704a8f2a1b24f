//! Answers in the line format of `second`.

use crate::through_c::{through_c, Empty};
use second::{parse_line, Call, Case, Outcome, BAD_LINE};

/// The answer to one line, by the C interface, which has no row program.
pub fn answer_line(line: &str) -> String {
    let case = parse_line(line).filter(|case| case.call != Call::Rows);
    let Some(case) = case else {
        return BAD_LINE.to_string();
    };
    let mut image = case.image.clone();
    let outcome = through_c(&mut image, &case.call, Empty::Place);
    answer_text(&case, &image, &outcome)
}

/// What a case came to: `NUMBER COUNT IMAGE ROOM SENSE` for a step, else `NUMBER IMAGE`.
pub fn answer_text(case: &Case, image: &[u8], outcome: &Outcome) -> String {
    let image = after(&case.image, image);
    match (outcome, &case.call) {
        (Outcome::Step(outcome), Call::Step(call)) => {
            let count = match outcome.count {
                Some(count) => count.to_string(),
                None => "-".to_string(),
            };
            let room = after(&call.room, &outcome.room);
            let sense = after(&call.sense, &outcome.sense);
            format!("{} {count} {image} {room} {sense}", outcome.number)
        }
        (Outcome::Reset { number } | Outcome::Mark { number }, _) => format!("{number} {image}"),
        other => panic!("this is not in the C interface: {other:?}"),
    }
}

/// The bytes, or `=` where they are as they were.
fn after(old: &[u8], new: &[u8]) -> String {
    if old == new {
        return "=".to_string();
    }
    new.iter().map(|byte| format!("{byte:02x}")).collect()
}
