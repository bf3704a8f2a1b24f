//! The XOR of eight sources, in blocks of 512 bytes, byte by byte, to a drive of 32 MiB, and how long that took: the plain
//! program that `make bench` holds REBUILD to.

use std::time::Instant;

const BLOCK: usize = 512;
const BLOCKS: usize = 65_536;
const SOURCES: usize = 8;

/// What a source holds: any bytes, but not the same in each.
fn contents(source: usize) -> Vec<u8> {
    let byte = |i| (i * (2 * source + 1) >> 3) as u8;
    (0..BLOCKS * BLOCK).map(byte).collect()
}

fn rebuild(target: &mut [u8], sources: &[Vec<u8>]) {
    for number in 0..BLOCKS {
        let at = number * BLOCK;
        let block = &mut target[at..at + BLOCK];
        block.fill(0);
        for source in sources {
            let other = &source[at..at + BLOCK];
            for i in 0..BLOCK {
                block[i] ^= other[i];
            }
        }
    }
}

fn main() {
    let sources: Vec<Vec<u8>> = (0..SOURCES).map(contents).collect();
    let mut target = vec![0x55; BLOCKS * BLOCK];
    let start = Instant::now();
    rebuild(&mut target, &sources);
    let milliseconds = 1e3 * start.elapsed().as_secs_f64();
    let last = BLOCKS * BLOCK - 1;
    let due = sources.iter().fold(0, |sum, source| sum ^ source[last]);
    assert_eq!(target[last], due, "the last byte is wrong");
    println!("{milliseconds:.3} ms");
}
