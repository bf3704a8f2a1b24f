//! How much stack the calls take: each runs on a stack of its own, filled with one byte, and what
//! no longer holds that byte was used. With a number as argument the program fails where a call takes
//! more bytes than that.

use shelf_bench::{list, listed, send, shelf};
use shelf_tests::c::{shelf_mark, shelf_reset};
use std::ffi::{c_int, c_void};
use std::process::ExitCode;
use std::ptr::null_mut;

const STACK: usize = 1 << 20;
const PAGE: usize = 1 << 16;
const FILL: u8 = 0x5C;

/// Room for a `pthread_attr_t`, which has 56 or 64 bytes.
#[repr(C, align(16))]
struct Attributes([u8; 128]);

extern "C" {
    fn pthread_attr_init(attributes: *mut Attributes) -> c_int;
    fn pthread_attr_setstack(attributes: *mut Attributes, low: *mut c_void, size: usize) -> c_int;
    fn pthread_create(
        thread: *mut usize,
        attributes: *const Attributes,
        start: extern "C" fn(*mut c_void) -> *mut c_void,
        argument: *mut c_void,
    ) -> c_int;
    fn pthread_join(thread: usize, result: *mut *mut c_void) -> c_int;
}

/// A call to make, and where the stack stood when it was made.
struct Made<'a> {
    call: &'a mut dyn FnMut(),
    top: usize,
}

extern "C" fn start(made: *mut c_void) -> *mut c_void {
    let here = 0u8;
    // SAFETY: `stack_of` lends a `Made` until the thread has ended.
    let made = unsafe { &mut *made.cast::<Made>() };
    made.top = &raw const here as usize;
    (made.call)();
    null_mut()
}

/// The bytes of stack that a call takes, with the few of the function that makes it.
fn stack_of(call: &mut dyn FnMut()) -> usize {
    let mut bytes = vec![FILL; STACK + PAGE];
    let low = bytes.as_ptr().align_offset(PAGE);
    let bottom = bytes[low..].as_mut_ptr();
    let mut made = Made { call, top: 0 };
    let mut attributes = Attributes([0; 128]);
    let mut thread = 0;
    let check = |failed: c_int| assert_eq!(failed, 0, "no thread");
    // SAFETY: the stack, the attributes and `made` live until the thread has ended.
    unsafe {
        check(pthread_attr_init(&mut attributes));
        check(pthread_attr_setstack(&mut attributes, bottom.cast(), STACK));
        let argument = (&raw mut made).cast();
        check(pthread_create(&mut thread, &attributes, start, argument));
        check(pthread_join(thread, null_mut()));
    }
    let untouched = bytes[low..].iter().take_while(|byte| **byte == FILL);
    made.top - bottom as usize - untouched.count()
}

/// Says what a call took, and gives it back.
fn report(name: &str, bytes: usize) -> usize {
    println!("{bytes:6} {name}");
    bytes
}

/// A command to drive 1 that must be GOOD.
fn command(image: &mut [u8], name: &str, cdb: &[u8], data: &[u8]) -> usize {
    let mut room = [0; 2048];
    report(name, stack_of(&mut || send(image, 1, cdb, data, &mut room)))
}

/// REBUILD and REGENERATE of so many blocks, the second with Int Data.
fn with_list(image: &mut [u8], blocks: usize, sources: usize) -> usize {
    let mut data = list(vec![32; sources].into_iter());
    let rebuild = listed(0xC3, blocks, &data);
    let name = format!("REBUILD, blocks: {blocks}, sources: {sources}");
    let most = command(image, &name, &rebuild, &data);
    let mut regenerate = listed(0xC4, blocks, &data);
    regenerate[1] = 0x04;
    data.extend(vec![0xA5; 512 * blocks]);
    let name = format!("REGENERATE with Int Data, blocks: {blocks}, sources: {sources}");
    most.max(command(image, &name, &regenerate, &data))
}

fn every_call(image: &mut [u8]) -> usize {
    let (place, length) = (image.as_mut_ptr(), image.len());
    // SAFETY: the pointer and the length are those of the image.
    let reset = stack_of(&mut || assert_eq!(unsafe { shelf_reset(place, length, 2) }, 0));
    // SAFETY: as above.
    let mark = stack_of(&mut || assert_eq!(unsafe { shelf_mark(place, length, 2, 1) }, 0));
    let mut most = report("shelf_reset", reset).max(report("shelf_mark", mark));
    let ten = |code| [code, 0, 0, 0, 0, 0, 0, 0, 4, 0];
    let xdwrite = |byte1| [0xC0, byte1, 0, 0, 0, 0, 0, 4, 0, 0, 32, 0, 0, 0, 0, 0];
    let data = [0xA5; 2048];
    let calls: [(&str, &[u8], &[u8]); 10] = [
        ("READ", &ten(0x28), &[]),
        ("WRITE", &ten(0x2A), &data),
        ("XPWRITE", &ten(0xC1), &data),
        ("XDWRITE, sent", &xdwrite(0x00), &data),
        ("XDWRITE, retained", &xdwrite(0x06), &data),
        ("XDREAD", &ten(0xC2), &[]),
        ("XDWRITE(10)", &ten(0x50), &data),
        ("XDREAD(10)", &ten(0x52), &[]),
        ("XPWRITE(10)", &ten(0x51), &data),
        ("XDWRITEREAD(10)", &ten(0x53), &data),
    ];
    for (name, cdb, sent) in calls {
        most = most.max(command(image, name, cdb, sent));
    }
    // One block from at most eight sources takes the plain path, anything more the faster one.
    for (blocks, sources) in [(1, 1), (1, 8), (1, 9), (4, 1), (4, 255)] {
        most = most.max(with_list(image, blocks, sources));
    }
    most
}

fn main() -> ExitCode {
    let argument = std::env::args().nth(1);
    let limit = argument.map_or(usize::MAX, |limit| limit.parse().expect("a number"));
    let most = every_call(&mut shelf(32, 8, 512, 16, 4));
    match most <= limit {
        true => ExitCode::SUCCESS,
        false => ExitCode::FAILURE,
    }
}
