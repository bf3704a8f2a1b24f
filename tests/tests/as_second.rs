//! The tests of `second` once more, with every call made through the C interface: C1 to C11 and
//! all other cases whose bytes are known, the recorded ones, and laws of lists on random shelves.

// Each file of tests loads `common`.
#![allow(clippy::duplicate_mod)]

extern crate shelf_tests as second;

#[path = "../../second/tests/bench_cases.rs"]
mod bench_cases;
#[path = "../../second/tests/blocks.rs"]
mod blocks;
#[path = "../../second/tests/c_interface.rs"]
mod c_interface;
#[path = "../../second/tests/divided.rs"]
mod divided;
#[path = "../../second/tests/fields.rs"]
mod fields;
#[path = "../../second/tests/image.rs"]
mod image;
#[path = "../../second/tests/media.rs"]
mod media;
#[path = "../../second/tests/numbers.rs"]
mod numbers;
#[path = "../../second/tests/order_of_checks.rs"]
mod order_of_checks;
#[path = "../../second/tests/published.rs"]
mod published;
#[path = "../../second/tests/recorded_cases.rs"]
mod recorded_cases;
#[path = "../../second/tests/results.rs"]
mod results;
