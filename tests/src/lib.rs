//! The C interface of the XOR shelf, called so that tests can trust what they see.
//!
//! - [`c`] declares the functions as `include/shelf.h` does,
//! - [`through_c`] makes a call of `second` through them: each buffer stands between
//!   guard bytes, which are looked at after the call,
//! - [`agree`] makes a call through them and by `second`, and both must leave the same
//!   bytes; [`xor`] and [`xor_four`], which take no image, do the same.
//!
//! The rest has the names and shapes of `second`, so that the tests of `second` can
//! be built over this crate in its place: each of their calls is then one that must
//! [`agree`].
//!
//! `tools/native-lib` writes the library that is linked, and SHELF_LIB_DIR names the
//! folder of another one. Then `cargo test --release` runs the tests.

mod agree;
mod as_second;
mod blocks;
pub mod c;
mod lent;
mod lines;
mod through_c;

pub use agree::agree;
pub use as_second::{mark, reset, step, Call, StepCall};
pub use blocks::{xor, xor_four};
pub use lines::answer_line;
pub use second::{case_line, listing, parse_line, rows};
pub use second::{Good, Random, Reached, Refusal, Shelf, StepOutcome, SENSE_SIZE};
pub use through_c::{through_c, Empty};
