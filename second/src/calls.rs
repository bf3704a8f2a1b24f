//! The calls of the C interface.

use crate::act::perform;
use crate::bytes::xor_into;
use crate::decide::{decide, find_target, Request};
use crate::geometry::Geometry;
use crate::refusal::Refusal;
use crate::sense::{Sense, SENSE_SIZE};
use crate::shelf::Shelf;

const GOOD: u32 = 0x00;

/// Carries out one command.
///
/// A sense room below 37 bytes is call 5 "before all other checks, nothing
/// moved", `count` included. On every other call the first 37 bytes of the
/// sense room and `count` are written.
pub fn step(
    image: &mut [u8],
    target: u32,
    cdb: &[u8],
    data: &[u8],
    room: &mut [u8],
    sense: &mut [u8],
    count: &mut u32,
) -> u32 {
    let Some(sense_room) = sense.get_mut(..SENSE_SIZE) else {
        return Refusal::SenseRoomShort.number();
    };
    sense_room.copy_from_slice(&Sense::none().bytes);
    *count = 0;
    let request = Request {
        image,
        target,
        cdb,
        data,
        room: room.len(),
    };
    match decide(&request) {
        Ok((shelf, act)) => {
            *count = perform(&act, shelf, image, data, room) as u32;
            GOOD
        }
        Err(refusal) => {
            let answer = refusal.answer();
            sense_room.copy_from_slice(&answer.sense.bytes);
            answer.number
        }
    }
}

/// Hard reset: "drops all results of its drive, present or failed".
pub fn reset(image: &mut [u8], target: u32) -> u32 {
    match find_target(image, target) {
        Ok((mut shelf, drive)) => {
            shelf.drop_results_of(drive);
            shelf.write_records(image);
            GOOD
        }
        Err(refusal) => refusal.number(),
    }
}

/// "Marking writes the state byte alone".
pub fn mark(image: &mut [u8], target: u32, state: u32) -> u32 {
    match decide_mark(image, target, state) {
        Ok((geometry, drive, failed)) => {
            image[geometry.entry(drive).start] = u8::from(failed);
            GOOD
        }
        Err(refusal) => refusal.number(),
    }
}

/// Calls 1, 2, 6 in that order; gives the place and whether it is to fail.
pub fn decide_mark(
    image: &[u8],
    target: u32,
    state: u32,
) -> Result<(Geometry, usize, bool), Refusal> {
    let (shelf, drive) = find_target(image, target)?;
    match state {
        0 => Ok((shelf.geometry, drive, false)),
        1 => Ok((shelf.geometry, drive, true)),
        _ => Err(Refusal::BadState),
    }
}

/// Whether a reset of this drive has results to drop.
pub fn has_results(shelf: &Shelf, drive: usize) -> bool {
    let mut records = shelf.records.iter();
    records.any(|r| !r.is_empty() && usize::from(r.drive) == drive)
}

/// XORs a block into another, as many bytes as both have.
pub fn xor(into: &mut [u8], from: &[u8]) {
    xor_into(into, from);
}

/// XORs four blocks into another, as many bytes as all five have.
pub fn xor_four(into: &mut [u8], operands: [&[u8]; 4]) {
    let lengths = operands.iter().map(|operand| operand.len());
    let common = lengths.fold(into.len(), usize::min);
    for operand in operands {
        xor_into(&mut into[..common], operand);
    }
}
