//! The second program: the rules of the XOR shelf, called 01 in the comments,
//! with the published codes that A1 puts beside those of 1994, carried out in
//! plain Rust.
//!
//! The proved library is checked against this one: both get the same call on
//! the same image and must leave the same bytes. So this one shares no code
//! with it and is written to be read next to 01:
//!
//! - an image is decoded into a [`Shelf`] or found not valid,
//! - `decide` walks through checks 1 to 11 in 01's order and ends with a
//!   [`Refusal`] or with an act that can no longer fail,
//! - `act` carries the act out on the image.
//!
//! [`step`], [`reset`] and [`mark`] behave as the calls of the C interface do:
//! a status comes back as itself and call number n as 256 + n. So do [`xor`] and
//! [`xor_four`], which XOR blocks by themselves (A3). [`listing`] and
//! [`rows`] are the row program. [`Call::reached`] tells which refusal or which
//! kind of GOOD decides a call, and [`Way`] by which command, so that tests can
//! count what they have seen.
//! [`random_case`] and [`next_call`] make calls from a seed.
//!
//! All numbers are taken as `u64`, since D*B*L reaches 2^33, and no bytes make
//! any function here panic.

mod act;
mod address;
mod bytes;
mod calls;
mod case;
mod check_fields;
mod check_places;
mod command;
mod decide;
mod draft;
mod geometry;
mod good;
mod lines;
mod list;
mod listed;
mod random;
mod random_call;
mod random_damage;
mod random_list;
mod random_shelf;
mod random_twist;
mod record;
mod refusal;
mod rows;
mod sense;
mod shelf;
mod way;

pub use calls::{mark, reset, step, xor, xor_four};
pub use case::{Call, Case, Outcome, Reached, StepCall, StepOutcome};
pub use good::Good;
pub use lines::{answer_line, case_line, parse_line, BAD_LINE};
pub use random::Random;
pub use random_call::{next_call, random_case};
pub use random_shelf::{random_image, random_shelf};
pub use refusal::Refusal;
pub use rows::{listing, rows, INPUT_LIMIT};
pub use sense::SENSE_SIZE;
pub use shelf::Shelf;
pub use way::Way;
