//! `include/shelf.h` in Rust.

extern "C" {
    pub fn shelf_step(
        image: *mut u8,
        image_len: usize,
        target: u32,
        cdb: *const u8,
        cdb_len: usize,
        data: *const u8,
        data_len: usize,
        room: *mut u8,
        room_len: usize,
        sense: *mut u8,
        sense_len: usize,
        count: *mut u32,
    ) -> u32;

    pub fn shelf_reset(image: *mut u8, image_len: usize, target: u32) -> u32;

    pub fn shelf_mark(image: *mut u8, image_len: usize, target: u32, state: u32) -> u32;

    pub fn shelf_xor(into: *mut u8, into_len: usize, from: *const u8, from_len: usize);

    pub fn shelf_xor_four(
        into: *mut u8,
        into_len: usize,
        a: *const u8,
        a_len: usize,
        b: *const u8,
        b_len: usize,
        c: *const u8,
        c_len: usize,
        d: *const u8,
        d_len: usize,
    );
}
