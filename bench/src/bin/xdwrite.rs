//! XDWRITE of 512 bytes, 64 KiB and 1 MiB, coupled with a secondary and retained, beside a plain loop.
//!
//! The loop does in one pass over 512 bytes at a time what a call does: the result, the data over the
//! old blocks, the result laid down. Both are timed by turns in one run, and the best time of each counts.

use shelf_bench::{media_at, send, shelf};
use std::time::Instant;

const LENGTH: usize = 4096;
const MOST: usize = 256;
const DRIVES: usize = 2;

/// Where the slot is, and where the blocks of the two drives are, with blocks of so many bytes.
fn places(length: usize, most: usize) -> (usize, usize, usize) {
    let media = media_at(DRIVES, length, 1, most);
    (32 + 4 * DRIVES, media, media + most * length)
}

/// The CDB of an XDWRITE to drive 1 with Sec Ctl 00 to drive 2, or 11.
fn cdb(flags: u8, blocks: usize) -> [u8; 16] {
    let [a, b] = (blocks as u16).to_be_bytes();
    [0xC0, flags, 0, 0, 0, 0, a, b, 0, 0, 2, 0, 0, 0, 0, 0]
}

/// A plain loop: the result is XORed into what is there, or stands in its place.
#[inline(never)]
fn plain(image: &mut [u8], from: usize, to: usize, data: &[u8], adds: bool) {
    let mut piece = [0; 512];
    for (number, data) in data.chunks(512).enumerate() {
        let (from, to) = (from + 512 * number, to + 512 * number);
        let piece = &mut piece[..data.len()];
        for (i, byte) in piece.iter_mut().enumerate() {
            *byte = data[i] ^ image[from + i];
        }
        image[from..from + data.len()].copy_from_slice(data);
        for (i, byte) in piece.iter().enumerate() {
            image[to + i] = if adds { image[to + i] ^ byte } else { *byte };
        }
    }
}

/// Nanoseconds of a call and of the loop: the best of many turns.
fn time(flags: u8, length: usize, blocks: usize) -> (f64, f64) {
    let most = blocks.min(MOST);
    let (slot, from, to) = places(length, most);
    let mut image = shelf(DRIVES, most, length, 1, most);
    let data = vec![0x5A; blocks * length];
    let (cdb, coupled) = (cdb(flags, blocks), flags == 0);
    let calls = (1 << 22) / (data.len() + 2048);
    let mut best = (f64::INFINITY, f64::INFINITY);
    for _ in 0..60 {
        let start = Instant::now();
        for _ in 0..calls {
            send(&mut image, 1, &cdb, &data, &mut []);
            image[slot..slot + 16].fill(0);
        }
        best.0 = best.0.min(start.elapsed().as_secs_f64());
        let start = Instant::now();
        for _ in 0..calls {
            plain(
                &mut image,
                from,
                if coupled { to } else { slot + 16 },
                &data,
                coupled,
            );
            image[slot..slot + 16].fill(0);
        }
        best.1 = best.1.min(start.elapsed().as_secs_f64());
    }
    let each = 1e9 / calls as f64;
    (each * best.0, each * best.1)
}

fn main() {
    for (name, flags) in [("coupled", 0x00), ("retained", 0x06)] {
        for (size, length, blocks) in [
            ("512 bytes", 512, 1),
            ("64 KiB", LENGTH, 16),
            ("1 MiB", LENGTH, MOST),
        ] {
            let (call, plain) = time(flags, length, blocks);
            println!(
                "XDWRITE {name}, {size}: {call:.0} ns, {:.2} times a plain loop",
                call / plain
            );
        }
    }
}
