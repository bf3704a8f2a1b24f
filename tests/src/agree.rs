//! Two implementations on one call.

use crate::lines::answer_text;
use crate::through_c::{through_c, Empty};
use second::{answer_line, case_line, Call, Case, Outcome};

/// Makes the call on the image through the C interface, once with every buffer at a place
/// and once with NULL for those of no bytes, and on a copy by `second`. All must leave the
/// same bytes.
pub fn agree(image: &mut [u8], call: &Call) -> Outcome {
    let before = image.to_vec();
    let mut due_image = before.clone();
    let due = call.run(&mut due_image);
    for empty in [Empty::Null, Empty::Place] {
        image.copy_from_slice(&before);
        let outcome = through_c(image, call, empty);
        if outcome != due || image != due_image {
            let case = Case {
                image: before,
                call: call.clone(),
            };
            panic!("{}", report(&case, image, &outcome));
        }
    }
    due
}

/// The case as a line that `second` reads, and both answers.
fn report(case: &Case, image: &[u8], outcome: &Outcome) -> String {
    let line = case_line(case);
    let due = answer_line(&line);
    let answer = answer_text(case, image, outcome);
    format!("the C interface and `second` disagree on\n  {line}\nsecond\n  {due}\nC\n  {answer}")
}
