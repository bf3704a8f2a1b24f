//! REBUILD of a 32 MiB drive from eight sources, beside a plain program that does the same, and beside
//! plain loops and, where it is installed, ISA-L's `xor_gen` over the same bytes.
//!
//!     rebuild PROGRAM [LIMIT]
//!
//! PROGRAM is docs/src/rebuild.rs, built for the same processor and at the same optimisation level. All
//! are timed by turns in one run, and the best time of each counts; loops and `xor_gen` must leave the
//! bytes that REBUILD leaves. It fails where REBUILD takes more than twice as long as PROGRAM, or more
//! than LIMIT times as long as the faster loop.

use shelf_bench::isal::Isal;
use shelf_bench::{list, listed, media_at, send, shelf};
use std::process::{Command, ExitCode};
use std::time::{Duration, Instant};

const DRIVES: usize = 9;
const BLOCKS: usize = 65_536;
const LENGTH: usize = 512;
const DRIVE: usize = BLOCKS * LENGTH;
const TURNS: usize = 20;
/// 02, A11: "at most twice its time".
const BAR: f64 = 2.0;

/// The blocks of drive 1, and those of the eight others, one drive after the other.
fn media(image: &mut [u8]) -> (&mut [u8], &mut [u8]) {
    image[media_at(DRIVES, LENGTH, 0, 1)..].split_at_mut(DRIVE)
}

/// A plain loop: byte by byte, the XOR of the eight sources.
#[inline(never)]
fn by_byte(image: &mut [u8]) {
    let (drive, sources) = media(image);
    for at in 0..DRIVE {
        let mut sum = 0;
        for source in 0..DRIVES - 1 {
            sum ^= sources[source * DRIVE + at];
        }
        drive[at] = sum;
    }
}

/// A plain loop: block by block, each source is XORed byte by byte into the drive.
#[inline(never)]
fn by_block(image: &mut [u8]) {
    let (drive, sources) = media(image);
    for (number, block) in drive.chunks_exact_mut(LENGTH).enumerate() {
        block.fill(0);
        for source in sources.chunks_exact(DRIVE) {
            let other = &source[number * LENGTH..][..LENGTH];
            for i in 0..LENGTH {
                block[i] ^= other[i];
            }
        }
    }
}

/// REBUILD of the whole of drive 1 from drives 2 to 9.
fn rebuild(image: &mut [u8]) {
    let list = list(2..10);
    let cdb = listed(0xC3, BLOCKS, &list);
    send(image, 1, &cdb, &list, &mut []);
}

/// The time of one turn, from a drive that holds something else.
fn time(image: &mut [u8], turn: fn(&mut [u8])) -> Duration {
    media(image).0.fill(0x55);
    let start = Instant::now();
    turn(image);
    start.elapsed()
}

/// What the plain program says that it took.
fn said(program: &str) -> Duration {
    let ran = Command::new(program).output().expect("the plain program");
    let said = String::from_utf8(ran.stdout).expect("text");
    let number = said
        .strip_suffix(" ms\n")
        .and_then(|ms| ms.parse::<f64>().ok());
    Duration::from_secs_f64(1e-3 * number.expect("a number of milliseconds"))
}

/// Every turn must leave the same image.
fn compare(image: &mut [u8], turns: &[fn(&mut [u8])], isal: &mut Option<Isal>) {
    time(image, by_byte);
    let due = image.to_vec();
    for turn in turns {
        time(image, *turn);
        assert!(*image == due, "the bytes that are left differ");
    }
    if let Some(isal) = isal {
        isal.time();
        assert!(isal.left() == media(image).0, "ISA-L leaves other bytes");
    }
}

/// The best time of each in milliseconds: the plain program, both loops, REBUILD, and ISA-L.
fn best(image: &mut [u8], program: &str, isal: &mut Option<Isal>) -> [f64; 5] {
    let mut best = [Duration::MAX; 5];
    for _ in 0..TURNS {
        let turn = [
            said(program),
            time(image, by_byte),
            time(image, by_block),
            time(image, rebuild),
            isal.as_mut().map_or(Duration::MAX, Isal::time),
        ];
        for (best, turn) in best.iter_mut().zip(turn) {
            *best = turn.min(*best);
        }
    }
    best.map(|best| 1e3 * best.as_secs_f64())
}

fn main() -> ExitCode {
    let mut arguments = std::env::args().skip(1);
    let program = arguments.next().expect("the plain program");
    let limit = arguments
        .next()
        .map_or(f64::INFINITY, |limit| limit.parse().expect("a number"));
    let mut image = shelf(DRIVES, BLOCKS, LENGTH, 0, 1);
    for (word, bytes) in media(&mut image).1.chunks_exact_mut(8).enumerate() {
        let bits = (word as u64 + 1).wrapping_mul(0x9E37_79B9_7F4A_7C15);
        bytes.copy_from_slice(&bits.to_be_bytes());
    }
    let mut isal = Isal::new(media(&mut image).1, DRIVE);
    compare(&mut image, &[by_block, rebuild], &mut isal);
    let [plain, byte, block, step, mark] = best(&mut image, &program, &mut isal);
    let (to_plain, to_loop) = (step / plain, step / byte.min(block));
    println!("plain program {plain:.1} ms, loop by byte {byte:.1} ms, loop by block {block:.1} ms");
    if isal.is_some() {
        println!(
            "ISA-L's xor_gen {mark:.1} ms: REBUILD {:.2} times that",
            step / mark
        );
    }
    println!("REBUILD {step:.1} ms: {to_plain:.2} times the plain program, {to_loop:.2} times the faster loop");
    match to_plain <= BAR && to_loop <= limit {
        true => ExitCode::SUCCESS,
        false => ExitCode::FAILURE,
    }
}
