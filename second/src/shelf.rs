//! A valid image, decoded.

use crate::address::{Address, Block};
use crate::bytes::number32;
use crate::geometry::Geometry;
use crate::record::Record;

/// One entry of the drive table.
#[derive(Clone, Copy, PartialEq, Eq, Debug)]
pub struct Drive {
    pub failed: bool,
    pub address: Address,
}

/// What an image says besides the bytes of its slots and media.
#[derive(Clone, PartialEq, Eq, Debug)]
pub struct Shelf {
    pub(crate) geometry: Geometry,
    pub(crate) drives: Vec<Drive>,
    pub(crate) records: Vec<Record>,
}

impl Shelf {
    /// The shelf in an image, or nothing if the image is not valid.
    pub fn read(image: &[u8]) -> Option<Shelf> {
        let geometry = Geometry::read(image)?;
        let drives = read_drives(&geometry, image)?;
        let records = read_records(&geometry, image)?;
        Some(Shelf {
            geometry,
            drives,
            records,
        })
    }

    /// The index of the drive with this address.
    pub(crate) fn find(&self, address: Address) -> Option<usize> {
        self.drives
            .iter()
            .position(|drive| drive.address == address)
    }

    /// "A new result takes the lowest-numbered empty slot".
    pub(crate) fn empty_slot(&self) -> Option<usize> {
        self.records.iter().position(Record::is_empty)
    }

    /// k, the rank of the newest result.
    pub(crate) fn retained(&self) -> u32 {
        self.records.iter().filter(|r| !r.is_empty()).count() as u32
    }

    /// "the newest retained on that drive with that block number", and newest
    /// is by rank because slots are used again in any order.
    pub(crate) fn newest(&self, drive: usize, block: Block) -> Option<usize> {
        let matches = |r: &Record| {
            !r.is_empty() && usize::from(r.drive) == drive && u64::from(r.block) == block.0
        };
        (0..self.records.len())
            .filter(|slot| matches(&self.records[*slot]))
            .max_by_key(|slot| self.records[*slot].rank)
    }

    /// Zeroes the record of a result that goes; "higher ranks fall by one".
    pub(crate) fn drop_result(&mut self, slot: usize) {
        let gone = self.records[slot].rank;
        self.records[slot] = Record::default();
        for record in &mut self.records {
            if record.rank > gone {
                record.rank -= 1;
            }
        }
    }

    /// Drops all results of a drive.
    pub(crate) fn drop_results_of(&mut self, drive: usize) {
        for slot in 0..self.records.len() {
            let record = self.records[slot];
            if !record.is_empty() && usize::from(record.drive) == drive {
                self.drop_result(slot);
            }
        }
    }

    /// Puts the records back into the image.
    pub(crate) fn write_records(&self, image: &mut [u8]) {
        for (slot, record) in self.records.iter().enumerate() {
            image[self.geometry.record(slot)].copy_from_slice(&record.bytes());
        }
    }
}

/// "state (0 present, 1 failed) and a 3-byte address. Addresses differ."
fn read_drives(geometry: &Geometry, image: &[u8]) -> Option<Vec<Drive>> {
    let mut drives: Vec<Drive> = Vec::new();
    for index in 0..geometry.drives as usize {
        let entry = &image[geometry.entry(index)];
        let failed = match entry[0] {
            0 => false,
            1 => true,
            _ => return None,
        };
        let address = Address(number32(&entry[1..4]));
        if drives.iter().any(|drive| drive.address == address) {
            return None;
        }
        drives.push(Drive { failed, address });
    }
    Some(drives)
}

/// The records, if each is empty or used as 01 says and the ranks of the used
/// ones "are 1 to k, each once".
fn read_records(geometry: &Geometry, image: &[u8]) -> Option<Vec<Record>> {
    let mut records = Vec::new();
    let mut ranks = Vec::new();
    for slot in 0..geometry.slots as usize {
        let record = Record::read(&image[geometry.record(slot)]);
        if !record.is_empty() {
            if !record.is_used(geometry) {
                return None;
            }
            ranks.push(record.rank);
        }
        records.push(record);
    }
    ranks.sort_unstable();
    let in_order = ranks.iter().zip(1..).all(|(rank, place)| *rank == place);
    in_order.then_some(records)
}
