//! ISA-L's `xor_gen`, where its library is installed (Debian's libisal-dev): the mark to aim for.

use std::ffi::{c_char, c_int, c_void, CStr};
use std::mem::transmute;
use std::time::{Duration, Instant};

const NOW: c_int = 2;
const ALIGNED: usize = 64;

type XorGen = unsafe extern "C" fn(c_int, c_int, *mut *mut c_void) -> c_int;

extern "C" {
    fn dlopen(name: *const c_char, flags: c_int) -> *mut c_void;
    fn dlsym(library: *mut c_void, name: *const c_char) -> *mut c_void;
}

/// The library's function, and where it finds the sources and leaves their XOR, the last of the drives.
pub struct Isal {
    xor_gen: XorGen,
    bytes: Vec<u8>,
    start: usize,
    drive: usize,
}

fn found(name: &CStr, function: &CStr) -> Option<XorGen> {
    // SAFETY: both names end in a zero, and the function has the type that its header gives it.
    unsafe {
        let library = dlopen(name.as_ptr(), NOW);
        let place = (!library.is_null()).then(|| dlsym(library, function.as_ptr()))?;
        (!place.is_null()).then(|| transmute::<*mut c_void, XorGen>(place))
    }
}

impl Isal {
    /// A copy of the sources, one of so many bytes after the other: it wants them aligned.
    pub fn new(sources: &[u8], drive: usize) -> Option<Isal> {
        let xor_gen = found(c"libisal.so.2", c"xor_gen")?;
        let mut bytes = vec![0x55; sources.len() + drive + ALIGNED];
        let start = bytes.as_ptr().align_offset(ALIGNED);
        bytes[start..][..sources.len()].copy_from_slice(sources);
        Some(Isal {
            xor_gen,
            bytes,
            start,
            drive,
        })
    }

    /// The time of one turn.
    pub fn time(&mut self) -> Duration {
        let drives = self.bytes[self.start..].chunks_exact_mut(self.drive);
        let mut drives: Vec<*mut c_void> = drives.map(|each| each.as_mut_ptr().cast()).collect();
        let start = Instant::now();
        // SAFETY: there are as many drives as it is told, each of so many bytes, and no two share a byte.
        let failed = unsafe {
            (self.xor_gen)(
                drives.len() as c_int,
                self.drive as c_int,
                drives.as_mut_ptr(),
            )
        };
        let time = start.elapsed();
        assert_eq!(failed, 0, "ISA-L's xor_gen");
        time
    }

    /// The XOR that it left.
    pub fn left(&self) -> &[u8] {
        let drives = self.bytes[self.start..].chunks_exact(self.drive);
        drives.last().expect("a drive")
    }
}
