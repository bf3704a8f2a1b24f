//! A READ of one block, on the bench shelf of 01 and on a full one: 32 drives, 16 slots, all used.
//!
//! A small call spends its time in the image's validity, which grows with drives and slots.

use shelf_bench::{send, shelf};
use std::time::Instant;

const CALLS: u32 = 20_000;
const TURNS: usize = 50;

/// A shelf whose slots are all used, the last of them by the oldest result.
fn full() -> Vec<u8> {
    let (drives, slots, length) = (32, 16, 4);
    let mut image = shelf(drives, 2, length, slots, 1);
    for slot in 0..slots {
        let at = 32 + 4 * drives + slot * (16 + length);
        let rank = (slots - slot) as u8;
        image[at..at + 8].copy_from_slice(&[0, 0, 0, rank, 1, slot as u8, 0, 1]);
    }
    image
}

/// Nanoseconds a call: the best of many turns.
fn time(image: &mut [u8], target: u32) -> f64 {
    let cdb = [0x28, 0, 0, 0, 0, 0, 0, 0, 1, 0];
    let mut room = [0; 4];
    let mut best = f64::INFINITY;
    for _ in 0..TURNS {
        let start = Instant::now();
        for _ in 0..CALLS {
            send(image, target, &cdb, &[], &mut room);
        }
        best = best.min(start.elapsed().as_secs_f64());
    }
    1e9 * best / f64::from(CALLS)
}

fn main() {
    let bench = time(&mut shelf(3, 2, 4, 1, 2), 3);
    let full = time(&mut full(), 32);
    println!("READ of one block: {bench:.0} ns on the bench shelf, {full:.0} ns on a full one");
}
