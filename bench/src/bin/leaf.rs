//! How much stack the XOR of blocks takes.
//!
//! Each call is made on a stack of its own, on which nothing else runs. It is painted in one way and
//! then in another: what no longer holds its paint was touched. The program prints the most, the
//! return address and the arguments that find no register included. It fails where that is more than
//! 64 bytes and what a call takes of a function that does nothing, where `include/shelf.h` tells of
//! another number, or where a byte is not XORed right; and where it does not see the stack of a
//! function that goes through a local copy.

use shelf_tests::c::{shelf_xor, shelf_xor_four};
use std::hint::black_box;

const LIMIT: usize = 64;
const STACK: usize = 1 << 14;
const COLOURS: [u8; 2] = [0x00, 0xFF];
const HEADER: &str = include_str!("../../../include/shelf.h");

/// How many words of a call go in registers, the others going on the stack; and the machine's column
/// in the header's table.
#[cfg(target_arch = "x86_64")]
const IN_REGISTERS: usize = 6;
#[cfg(target_arch = "x86_64")]
const COLUMN: usize = 0;
#[cfg(target_arch = "aarch64")]
const IN_REGISTERS: usize = 8;
#[cfg(target_arch = "aarch64")]
const COLUMN: usize = 1;

/// Calls a function with six words and the stack pointer at `top`, where the other words stand.
#[cfg(target_arch = "x86_64")]
unsafe fn call_at(top: *mut u8, function: *const (), words: [usize; IN_REGISTERS]) {
    let [a, b, c, d, e, f] = words;
    std::arch::asm!(
        "mov r12, rsp",
        "mov rsp, r13",
        "call r14",
        "mov rsp, r12",
        in("rdi") a, in("rsi") b, in("rdx") c, in("rcx") d, in("r8") e, in("r9") f,
        in("r13") top,
        in("r14") function,
        out("r12") _,
        clobber_abi("C"),
    );
}

/// The same with eight words.
#[cfg(target_arch = "aarch64")]
unsafe fn call_at(top: *mut u8, function: *const (), words: [usize; IN_REGISTERS]) {
    let [a, b, c, d, e, f, g, h] = words;
    std::arch::asm!(
        "mov x20, sp",
        "mov sp, x21",
        "blr x22",
        "mov sp, x20",
        in("x0") a, in("x1") b, in("x2") c, in("x3") d, in("x4") e, in("x5") f, in("x6") g, in("x7") h,
        in("x21") top,
        in("x22") function,
        out("x20") _,
        clobber_abi("C"),
    );
}

/// A stack that the machine can start from.
#[repr(C, align(16))]
struct Stack([u8; STACK]);

/// What a byte of the stack is painted with: never the colour itself, which a register may hold
/// that the call saves there.
fn paint(colour: u8, place: usize) -> u8 {
    colour ^ (place % 255 + 1) as u8
}

/// The bytes of stack that a call touches, on a stack that is painted.
///
/// # Safety
///
/// The function is a C function that may be called with these words.
unsafe fn touched(function: *const (), words: &[usize], colour: u8) -> usize {
    let mut stack = Box::new(Stack(std::array::from_fn(|place| paint(colour, place))));
    let mut first = [0; IN_REGISTERS];
    let (given, rest) = words.split_at(words.len().min(IN_REGISTERS));
    first[..given.len()].copy_from_slice(given);
    let top = STACK - 8 * rest.len();
    for (place, word) in rest.iter().enumerate() {
        stack.0[top + 8 * place..][..8].copy_from_slice(&word.to_ne_bytes());
    }
    let bottom = stack.0.as_mut_ptr();
    call_at(bottom.add(top), function, first);
    let bytes = black_box(&stack).0.iter().enumerate();
    let untouched = bytes.take_while(|(place, byte)| **byte == paint(colour, *place));
    STACK - untouched.count()
}

extern "C" fn nothing() {}

/// A leaf that goes through a local copy of the block.
unsafe extern "C" fn through_a_copy(into: *mut u8, into_len: usize, from: *const u8, _: usize) {
    let mut copy = [0; 4096];
    let length = into_len.min(copy.len());
    from.copy_to_nonoverlapping(copy.as_mut_ptr(), length);
    for (place, byte) in black_box(&copy)[..length].iter().enumerate() {
        *into.add(place) ^= byte;
    }
}

/// Bytes that differ from one operand to the next.
fn operand(number: usize, length: usize) -> Vec<u8> {
    let byte = |place: usize| (place * (2 * number + 3) + place / 251 + 17 * number) as u8;
    (0..length).map(byte).collect()
}

/// The bytes of stack that the XOR of so many operands of a length touches; all bytes are XORed right.
///
/// # Safety
///
/// The function takes a block to change and so many to read, each as a pointer and a length.
unsafe fn stack_of(function: *const (), operands: usize, length: usize) -> usize {
    let blocks: Vec<Vec<u8>> = (0..=operands)
        .map(|number| operand(number, length))
        .collect();
    let sum = |place: usize| blocks.iter().fold(0, |sum, block| sum ^ block[place]);
    let expected: Vec<u8> = (0..length).map(sum).collect();
    let once = |colour: u8| {
        let mut lent = blocks.clone();
        let words = lent
            .iter_mut()
            .flat_map(|block| [block.as_mut_ptr() as usize, length]);
        let words: Vec<usize> = words.collect();
        let bytes = touched(function, &words, colour);
        assert!(
            lent[0] == expected && lent[1..] == blocks[1..],
            "{length} bytes, XORed wrong"
        );
        bytes
    };
    COLOURS.map(once).into_iter().max().unwrap_or(0)
}

/// Every block length of a shelf, and lengths that none has.
fn lengths() -> Vec<usize> {
    (4..=4096).step_by(4).chain([0, 1, 3, 65_535]).collect()
}

/// The bytes of stack that the header tells of.
fn told(name: &str) -> usize {
    let numbers = HEADER.lines().find_map(|line| {
        let after = line.trim_start_matches([' ', '*']).strip_prefix(name)?;
        let numbers: Result<Vec<usize>, _> = after.split_whitespace().map(str::parse).collect();
        numbers.ok().filter(|numbers| numbers.len() == 2)
    });
    numbers.expect("a line of the header's table")[COLUMN]
}

/// Measures a function at every length, and says the most.
fn measure(name: &str, function: *const (), operands: usize) {
    let words = vec![0; 2 + 2 * operands];
    // SAFETY: `nothing` takes anything.
    let alone = |colour| unsafe { touched(nothing as *const (), &words, colour) };
    let own = COLOURS.map(alone).into_iter().max().unwrap_or(0);
    // SAFETY: the function takes so many operands.
    let at = |length| unsafe { stack_of(function, operands, length) };
    let most = lengths().into_iter().map(at).max().unwrap_or(0);
    println!(
        "{name}: at most {most} bytes of stack at {} lengths, {own} of them the call's own",
        lengths().len()
    );
    assert!(
        most <= LIMIT + own,
        "{name} takes more than {LIMIT} bytes of its own"
    );
    assert_eq!(
        most,
        told(name),
        "{name}: the header tells of another number"
    );
}

fn main() {
    // SAFETY: it takes a block to change and one to read.
    let copied = unsafe { stack_of(through_a_copy as *const (), 1, 4096) };
    assert!(
        copied > 4096,
        "of a local copy of 4,096 bytes {copied} are seen"
    );
    measure("shelf_xor", shelf_xor as *const (), 1);
    measure("shelf_xor_four", shelf_xor_four as *const (), 4);
}
