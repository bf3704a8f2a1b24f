//! What a step does once no check refuses it.

use crate::address::Extent;
use crate::bytes::xor_into;
use crate::geometry::Geometry;
use crate::good::Good;
use crate::record::{Record, REGENERATE, XDWRITE};
use crate::shelf::Shelf;

/// What REBUILD and REGENERATE take the XOR of, besides the own blocks.
#[derive(Clone, PartialEq, Eq, Debug)]
pub struct Operands {
    pub sources: Vec<Extent>,
    /// The intermediate data, "one more operand".
    pub data: Option<Vec<u8>>,
}

/// A step that all checks let through.
#[derive(Clone, PartialEq, Eq, Debug)]
pub enum Act {
    /// GOOD with nothing moved, for the reason given.
    Nothing(Good),
    /// READ.
    Read(Extent),
    /// WRITE.
    Write(Extent),
    /// XPWRITE of either set.
    XorWrite(Extent),
    /// XDWRITE to a secondary.
    Send {
        at: Extent,
        to: Extent,
        mirror: bool,
    },
    /// XDWRITE with Sec Ctl 11, `write` being NDisc 0; or XDWRITE(10), `write`
    /// being DISABLE WRITE 0.
    Retain {
        at: Extent,
        slot: usize,
        mirror: bool,
        write: bool,
    },
    /// XDREAD of either set.
    Fetch { slot: usize },
    /// XDWRITEREAD(10); `write` is DISABLE WRITE 0.
    HandOver { at: Extent, write: bool },
    /// REBUILD.
    Rebuild {
        at: Extent,
        operands: Operands,
        to_the_end: bool,
    },
    /// REGENERATE.
    Regenerate {
        at: Extent,
        slot: usize,
        operands: Operands,
    },
}

/// Carries an act out on the image it was decided for; gives the number of
/// bytes put into the receive room.
pub fn perform(
    act: &Act,
    mut shelf: Shelf,
    image: &mut [u8],
    data: &[u8],
    room: &mut [u8],
) -> usize {
    let geometry = shelf.geometry;
    match act {
        Act::Nothing(_) => {}
        Act::Read(at) => return deliver(&image[geometry.blocks_of(at)], room),
        Act::Write(at) => image[geometry.blocks_of(at)].copy_from_slice(data),
        Act::XorWrite(at) => xor_into(&mut image[geometry.blocks_of(at)], data),
        Act::Send { at, to, mirror } => send(&geometry, image, data, at, to, *mirror),
        Act::Retain {
            at,
            slot,
            mirror,
            write,
        } => {
            let result = xdwrite(&geometry, image, at, data, *mirror, *write);
            retain(&mut shelf, image, *slot, XDWRITE, at, &result);
        }
        Act::Fetch { slot } => return fetch(&mut shelf, image, *slot, room),
        Act::HandOver { at, write } => {
            let result = xdwrite(&geometry, image, at, data, false, *write);
            return deliver(&result, room);
        }
        Act::Rebuild { at, operands, .. } => {
            let result = xor_of(&geometry, image, operands, at.length);
            image[geometry.blocks_of(at)].copy_from_slice(&result);
        }
        Act::Regenerate { at, slot, operands } => {
            let mut result = xor_of(&geometry, image, operands, at.length);
            xor_into(&mut result, &image[geometry.blocks_of(at)]);
            retain(&mut shelf, image, *slot, REGENERATE, at, &result);
        }
    }
    0
}

/// "bytes past it stay".
fn deliver(bytes: &[u8], room: &mut [u8]) -> usize {
    room[..bytes.len()].copy_from_slice(bytes);
    bytes.len()
}

/// XDWRITE with a secondary.
fn send(
    geometry: &Geometry,
    image: &mut [u8],
    data: &[u8],
    at: &Extent,
    to: &Extent,
    mirror: bool,
) {
    let result = xdwrite(geometry, image, at, data, mirror, true);
    let secondary = &mut image[geometry.blocks_of(to)];
    if mirror {
        secondary.copy_from_slice(&result);
    } else {
        xor_into(secondary, &result);
    }
}

/// "result = data XOR old blocks, or the data itself with Mirror"; it is taken
/// before the data is written, if it is.
fn xdwrite(
    geometry: &Geometry,
    image: &mut [u8],
    at: &Extent,
    data: &[u8],
    mirror: bool,
    write: bool,
) -> Vec<u8> {
    let blocks = &mut image[geometry.blocks_of(at)];
    let mut result = data.to_vec();
    if !mirror {
        xor_into(&mut result, blocks);
    }
    if write {
        blocks.copy_from_slice(data);
    }
    result
}

/// The XOR of all sources and of the intermediate data.
fn xor_of(geometry: &Geometry, image: &[u8], operands: &Operands, length: u64) -> Vec<u8> {
    let mut result = vec![0; geometry.bytes(length) as usize];
    for source in &operands.sources {
        xor_into(&mut result, &image[geometry.blocks_of(source)]);
    }
    if let Some(data) = &operands.data {
        xor_into(&mut result, data);
    }
    result
}

/// A new result takes rank k+1; "its bytes fill the front of the slot, the
/// rest stays".
fn retain(shelf: &mut Shelf, image: &mut [u8], slot: usize, kind: u8, at: &Extent, result: &[u8]) {
    shelf.records[slot] = Record {
        rank: shelf.retained() + 1,
        kind,
        drive: at.drive as u8,
        length: at.length as u16,
        block: at.block.0 as u32,
        zero: 0,
    };
    shelf.write_records(image);
    image[shelf.geometry.slot_data(slot, at.length)].copy_from_slice(result);
}

/// XDREAD: the bytes go out, the record is zeroed and the slot's data is left.
fn fetch(shelf: &mut Shelf, image: &mut [u8], slot: usize, room: &mut [u8]) -> usize {
    let length = u64::from(shelf.records[slot].length);
    let count = deliver(&image[shelf.geometry.slot_data(slot, length)], room);
    shelf.drop_result(slot);
    shelf.write_records(image);
    count
}

impl Act {
    /// The kind of GOOD this act is answered with.
    pub fn good(&self, shelf: &Shelf) -> Good {
        match self {
            Act::Nothing(good) => *good,
            Act::Read(_) => Good::Read,
            Act::Write(_) => Good::Write,
            Act::XorWrite(_) => Good::XorWrite,
            Act::Send { mirror: false, .. } => Good::XorSent,
            Act::Send { mirror: true, .. } => Good::MirrorSent,
            Act::Retain { mirror, write, .. } => retained_kind(*mirror, *write),
            Act::Fetch { slot } if shelf.records[*slot].kind == XDWRITE => Good::FetchedXdWrite,
            Act::Fetch { .. } => Good::FetchedRegenerate,
            Act::HandOver { write: true, .. } => Good::XorHanded,
            Act::HandOver { write: false, .. } => Good::XorHandedOnly,
            Act::Rebuild {
                to_the_end: true, ..
            } => Good::RebuiltToTheEnd,
            Act::Rebuild { operands, .. } if operands.data.is_some() => Good::RebuiltWithData,
            Act::Rebuild { .. } => Good::Rebuilt,
            Act::Regenerate { operands, .. } if operands.data.is_some() => {
                Good::RegeneratedWithData
            }
            Act::Regenerate { .. } => Good::Regenerated,
        }
    }
}

fn retained_kind(mirror: bool, write: bool) -> Good {
    match (mirror, write) {
        (false, true) => Good::XorRetained,
        (true, true) => Good::MirrorRetained,
        (false, false) => Good::XorRetainedOnly,
        (true, false) => Good::MirrorRetainedOnly,
    }
}
