//! Random shelves whose counts are known, and commands with a list for them.

use super::common::Rig;
use second::{Random, StepCall, StepOutcome, SENSE_SIZE};
use std::ops::Range;

pub const REBUILD: u8 = 0xC3;
pub const REGENERATE: u8 = 0xC4;
/// The length of a REBUILD that goes to the last block.
pub const TO_THE_END: u32 = 0xFFFF_FFFF;

/// An entry of a list: a drive's address and the first of its blocks.
pub type Source = (u32, u32);

/// A REBUILD or REGENERATE before it is turned into bytes.
#[derive(Clone, PartialEq, Eq, Debug)]
pub struct Listed {
    pub code: u8,
    pub target: u32,
    pub block: u32,
    pub length: u32,
    pub sources: Vec<Source>,
    /// The intermediate data, if it comes with the command.
    pub data: Option<Vec<u8>>,
}

impl Listed {
    /// The step that sends the command.
    pub fn call(&self) -> StepCall {
        let mut data = vec![self.sources.len() as u8, 1, 0, 0];
        data.extend(self.block.to_be_bytes());
        for (address, block) in &self.sources {
            data.extend(address.to_be_bytes());
            data.extend(block.to_be_bytes());
        }
        let mut call = ten_bytes(self.code, self.target, self.length, data.len() as u32);
        if let Some(bytes) = &self.data {
            call.cdb[1] = 0x04;
            data.extend(bytes);
        }
        call.data = data;
        call
    }

    /// What the command gives back on a copy of the image, and the copy as it leaves it.
    pub fn on_a_copy(&self, image: &[u8]) -> (StepOutcome, Vec<u8>) {
        let mut copy = image.to_vec();
        let outcome = self.call().run(&mut copy);
        (outcome, copy)
    }

    /// The same command on a part of its blocks, in blocks of so many bytes.
    pub fn part(&self, blocks: Range<u32>, size: u32) -> Listed {
        let moved = |(address, block): &Source| (*address, block + blocks.start);
        let bytes = (blocks.start * size) as usize..(blocks.end * size) as usize;
        let data = self.data.as_ref();
        Listed {
            block: self.block + blocks.start,
            length: blocks.end - blocks.start,
            sources: self.sources.iter().map(moved).collect(),
            data: data.map(|data| data[bytes].to_vec()),
            ..*self
        }
    }
}

/// A command of ten bytes with these two fields, a receive room of 8 bytes and no data.
pub fn ten_bytes(code: u8, target: u32, long: u32, short: u32) -> StepCall {
    let mut cdb = vec![code, 0];
    cdb.extend(long.to_be_bytes());
    cdb.push(0);
    cdb.extend((short as u16).to_be_bytes());
    cdb.push(0);
    StepCall {
        target,
        cdb,
        data: vec![],
        room: vec![0xEE; 8],
        sense: vec![0xAA; SENSE_SIZE],
    }
}

/// Makes a step that must be GOOD.
pub fn good(call: &StepCall, image: &mut [u8]) -> StepOutcome {
    let outcome = call.run(image);
    assert_eq!(outcome.number, 0, "{call:02X?}");
    outcome
}

/// A number from low to high, both included.
pub fn from_to(random: &mut Random, low: u32, high: u32) -> u32 {
    random.between(low.into(), high.into()) as u32
}

/// One of the values.
pub fn one_of<T: Copy>(random: &mut Random, values: &[T]) -> T {
    random.pick(values).expect("a value to pick")
}

/// A shelf of random media, with the counts that it was made with.
#[derive(Clone)]
pub struct RandomShelf {
    pub rig: Rig,
    pub addresses: Vec<u32>,
    pub blocks: u32,
    /// The bytes of a block.
    pub size: u32,
    pub slots: u32,
    /// The blocks of a slot.
    pub most: u32,
}

impl RandomShelf {
    /// A shelf with a slot that is free and three drives that are present, at least.
    pub fn new(random: &mut Random) -> RandomShelf {
        let widest = one_of(random, &[4, 8, 32]);
        let longest = one_of(random, &[2, 4, 32]);
        let addresses = random_addresses(random, widest);
        let (drives, blocks) = (addresses.len() as u32, from_to(random, 1, 12));
        let size = 4 * from_to(random, 1, longest);
        let (slots, most) = (from_to(random, 1, 6), from_to(random, 1, 8));
        let mut shelf = RandomShelf {
            rig: Rig::shelf(drives, blocks, size, slots, most),
            addresses,
            blocks,
            size,
            slots,
            most,
        };
        shelf.fill(random);
        shelf.retain_some(random);
        shelf.fail_some(random);
        shelf
    }

    /// Writes the addresses, and random bytes where any bytes may stand.
    fn fill(&mut self, random: &mut Random) {
        let table = self.rig.image[32..].chunks_exact_mut(4);
        for (entry, address) in table.zip(&self.addresses) {
            entry.copy_from_slice(&address.to_be_bytes());
        }
        for slot in 0..self.slots {
            let place = self.slot(slot);
            random.fill(&mut self.rig.image[place][16..]);
        }
        let media = self.media_at();
        random.fill(&mut self.rig.image[media..]);
    }

    /// Fills some of the slots, and drops results again so that there are holes.
    fn retain_some(&mut self, random: &mut Random) {
        for _ in 0..from_to(random, 0, self.slots - 1) {
            let target = one_of(random, &self.addresses);
            let block = self.block(random, 1);
            self.retain(random, target, block);
        }
        if random.one_in(2) {
            self.rig.reset(one_of(random, &self.addresses));
        }
    }

    /// Has a drive retain a result at the block by an XDWRITE(10) that leaves the medium alone.
    pub fn retain(&mut self, random: &mut Random, target: u32, block: u32) {
        let length = from_to(random, 1, self.most.min(self.blocks - block));
        let mut call = ten_bytes(0x50, target, block, length);
        call.cdb[1] = 0x04;
        call.data = self.bytes(random, length);
        good(&call, &mut self.rig.image);
    }

    /// Drops all results where no slot is free.
    pub fn free_a_slot(&mut self) {
        if self.retained() == self.slots {
            for address in &self.addresses {
                self.rig.reset(*address);
            }
        }
    }

    /// Now and then marks drives as failed, all but three at most.
    fn fail_some(&mut self, random: &mut Random) {
        let most = self.addresses.len() as u32 - 3;
        if random.one_in(3) {
            for _ in 0..from_to(random, 0, most.min(4)) {
                self.rig.mark(one_of(random, &self.addresses), 1);
            }
        }
    }

    /// The addresses of the drives that are present, in random order.
    pub fn present(&self, random: &mut Random) -> Vec<u32> {
        let states = self.rig.image[32..].chunks_exact(4);
        let drives = states.zip(&self.addresses);
        let mut present: Vec<u32> = drives
            .filter(|(entry, _)| entry[0] == 0)
            .map(|(_, address)| *address)
            .collect();
        random.shuffle(&mut present);
        present
    }

    /// A range of so many blocks at most that lies on a drive: its first block and its length.
    pub fn range(&self, random: &mut Random, most: u32) -> (u32, u32) {
        let length = from_to(random, 1, most.min(self.blocks));
        (self.block(random, length), length)
    }

    /// A block from which so many lie on a drive.
    pub fn block(&self, random: &mut Random, length: u32) -> u32 {
        from_to(random, 0, self.blocks - length)
    }

    /// Random bytes for so many blocks.
    pub fn bytes(&self, random: &mut Random, blocks: u32) -> Vec<u8> {
        random.bytes((blocks * self.size).into())
    }

    /// A READ or XDREAD with a receive room that its blocks just fit into.
    pub fn reading(&self, code: u8, target: u32, block: u32, length: u32) -> StepCall {
        let mut call = ten_bytes(code, target, block, length);
        call.room = vec![0xEE; (length * self.size) as usize];
        call
    }

    /// Up to twelve sources on these drives, which may come up again, where so many blocks fit.
    pub fn sources(&self, random: &mut Random, drives: &[u32], length: u32) -> Vec<Source> {
        (0..from_to(random, 1, 12))
            .map(|_| (one_of(random, drives), self.block(random, length)))
            .collect()
    }

    /// A REBUILD or REGENERATE that is GOOD if a slot is free, and often reaches the last block.
    pub fn listed(&self, random: &mut Random, code: u8, int_data: bool) -> Listed {
        let mut drives = self.present(random);
        let target = drives.pop().expect("a target");
        let most = match code {
            REBUILD => self.blocks,
            _ => self.most,
        };
        let (block, length) = self.range(random, most);
        let last = self.blocks - length;
        Listed {
            code,
            target,
            block: one_of(random, &[block, last]),
            length,
            sources: self.sources(random, &drives, length),
            data: int_data.then(|| self.bytes(random, length)),
        }
    }

    /// The media of an image of this shelf.
    pub fn media<'a>(&self, image: &'a [u8]) -> &'a [u8] {
        &image[self.media_at()..]
    }

    /// How many results the shelf retains.
    pub fn retained(&self) -> u32 {
        let kinds = (0..self.slots).map(|slot| self.rig.image[self.slot(slot).start + 4]);
        kinds.filter(|kind| *kind > 0).count() as u32
    }

    /// Where the data of the lowest empty slot begins.
    pub fn empty_data(&self, image: &[u8]) -> usize {
        let mut slots = (0..self.slots).map(|slot| self.slot(slot));
        let empty = slots.find(|slot| image[slot.start + 4] == 0);
        empty.expect("an empty slot").start + 16
    }

    /// Where a slot stands in the image.
    fn slot(&self, slot: u32) -> Range<usize> {
        let size = 16 + (self.most * self.size) as usize;
        let start = 32 + 4 * self.addresses.len() + slot as usize * size;
        start..start + size
    }

    /// Where the media begin, right after the slots.
    fn media_at(&self) -> usize {
        self.slot(self.slots).start
    }
}

/// Three to so many addresses that differ, in no order.
fn random_addresses(random: &mut Random, most: u32) -> Vec<u32> {
    let mut addresses: Vec<u32> = (0..64).map(|number| 0x03_0201 * number).collect();
    random.shuffle(&mut addresses);
    addresses.truncate(from_to(random, 3, most) as usize);
    addresses
}
