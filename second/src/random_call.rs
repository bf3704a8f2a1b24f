//! Random calls that know the shelf they are made on.

use crate::address::{Address, Block};
use crate::case::{Call, Case, StepCall};
use crate::command::{Op, DISABLE_WRITE, MIRROR, NDISC, RETAIN};
use crate::draft::Draft;
use crate::geometry::Geometry;
use crate::random::Random;
use crate::random_shelf::{build, random_image};
use crate::rows::INPUT_LIMIT;
use crate::sense::SENSE_SIZE;
use crate::shelf::{Drive, Shelf};

/// No call carries or asks for more bytes than this.
const MOST_BYTES: u64 = 70_000;

/// A call of any sort on an image of any sort.
pub fn random_case(random: &mut Random) -> Case {
    if random.one_in(1_024) {
        let image = image_at_the_limit(random);
        let call = Call::Rows;
        return Case { image, call };
    }
    let image = random_image(random);
    let call = if random.one_in(32) {
        Call::Rows
    } else {
        next_call(random, &image)
    };
    Case { image, call }
}

/// A random call for an image, made so that a run of such calls on one image
/// gets somewhere: about half of them are sensible, the others have up to three
/// faults.
pub fn next_call(random: &mut Random, image: &[u8]) -> Call {
    let shelf = Shelf::read(image).unwrap_or_else(stand_in);
    let mut maker = Maker {
        random,
        shelf: &shelf,
    };
    match maker.random.below(24) {
        0 => Call::Reset {
            target: maker.any_target(),
        },
        1 => Call::Mark {
            target: maker.any_target(),
            state: maker.random.number(&[0, 0, 0, 0, 1, 2, 256, 0xFFFF_FFFF]) as u32,
        },
        _ => Call::Step(maker.step()),
    }
}

/// An input of exactly the row program's limit, or of one byte more.
fn image_at_the_limit(random: &mut Random) -> Vec<u8> {
    let geometry = Geometry {
        drives: 2,
        blocks: 6_139,
        block_length: 4,
        slots: 0,
        slot_blocks: 1,
    };
    let mut image = build(random, &geometry);
    image.resize(INPUT_LIMIT + random.below(2) as usize, 0);
    image
}

/// A shelf to make calls for where the image is none.
fn stand_in() -> Shelf {
    let drive = |address| Drive {
        failed: false,
        address: Address(address),
    };
    Shelf {
        geometry: Geometry {
            drives: 2,
            blocks: 4,
            block_length: 4,
            slots: 1,
            slot_blocks: 2,
        },
        drives: vec![drive(1), drive(2)],
        records: Vec::new(),
    }
}

/// Makes calls for one shelf.
pub struct Maker<'a> {
    pub random: &'a mut Random,
    pub shelf: &'a Shelf,
}

impl Maker<'_> {
    fn step(&mut self) -> StepCall {
        let mut draft = self.sensible();
        for _ in 0..self.random.number(&[0, 0, 0, 0, 1, 1, 2, 3]) {
            self.twist(&mut draft);
        }
        let mut cdb = draft.cdb();
        if self.random.one_in(24) {
            self.spoil_cdb(&mut cdb);
        }
        StepCall {
            target: draft.target,
            cdb,
            data: self.data(&draft),
            room: self.room(&draft),
            sense: self.sense(),
        }
    }

    /// A command that has a good chance of GOOD.
    fn sensible(&mut self) -> Draft {
        let full = !self.shelf.records.is_empty() && self.shelf.empty_slot().is_none();
        if full && self.random.one_in(4) {
            // Else a shelf whose slots are all used would be BUSY too often.
            let either = self.random.pick(&[Op::XdRead, Op::XdRead10]);
            return self.xdread(either.unwrap_or(Op::XdRead));
        }
        match self.random.below(28) {
            0..=3 => self.xdwrite(),
            4..=6 => self.xdread(Op::XdRead),
            7 | 8 => self.listed(Op::Rebuild),
            9..=11 => self.listed(Op::Regenerate),
            12 => self.plain(Op::Write),
            13 => self.plain(Op::Read),
            14 | 15 => self.plain(Op::XpWrite),
            16..=18 => self.may_disable(Op::XdWrite10),
            19 | 20 => self.plain(Op::XpWrite10),
            21..=23 => self.xdread(Op::XdRead10),
            _ => self.may_disable(Op::XdWriteRead10),
        }
    }

    /// XPWRITE of either set, READ or WRITE.
    fn plain(&mut self, op: Op) -> Draft {
        let most = if op.limited() {
            self.shelf.geometry.slot_blocks
        } else {
            self.shelf.geometry.blocks
        };
        let (block, length) = self.blocks(most);
        let target = self.present();
        let mut draft = Draft::new(self.address(target), op, block, length);
        draft.command.byte1 = self.cache_bits();
        draft
    }

    fn xdwrite(&mut self) -> Draft {
        let (block, length) = self.blocks(self.shelf.geometry.slot_blocks);
        let target = self.present();
        let mut draft = Draft::new(self.address(target), Op::XdWrite, block, length);
        let sec_ctl = self.random.number(&[0, 2, 3, 3]) as u8;
        let mut byte1 = self.cache_bits() | sec_ctl << 1;
        if self.random.one_in(4) {
            byte1 |= MIRROR;
        }
        if sec_ctl == RETAIN && self.random.one_in(3) {
            byte1 |= NDISC;
        }
        let secondary = self.other_than(target);
        draft.command.byte1 = byte1;
        draft.command.secondary = Address(self.address(secondary));
        draft.command.secondary_block = Block(self.block_for(block, length));
        draft
    }

    /// XDWRITE(10) or XDWRITEREAD(10), every second one with DISABLE WRITE.
    fn may_disable(&mut self, op: Op) -> Draft {
        let mut draft = self.plain(op);
        if self.random.one_in(2) {
            draft.command.byte1 |= DISABLE_WRITE;
        }
        draft
    }

    /// XDREAD of either set, mostly of something that is retained.
    fn xdread(&mut self, op: Op) -> Draft {
        let used: Vec<_> = self
            .shelf
            .records
            .iter()
            .filter(|r| !r.is_empty())
            .collect();
        match self.random.pick(&used) {
            Some(record) => {
                let target = self.address(usize::from(record.drive));
                let (block, length) = (u64::from(record.block), u64::from(record.length));
                Draft::new(target, op, block, length)
            }
            None => {
                let mut draft = self.plain(op);
                draft.command.byte1 = 0;
                draft
            }
        }
    }

    /// The data-out bytes that are due, or now and then others.
    fn data(&mut self, draft: &Draft) -> Vec<u8> {
        let command = &draft.command;
        let mut data = if command.op.has_list() {
            draft.list.bytes(command.list_length)
        } else {
            Vec::new()
        };
        let blocks = match command.op {
            op if op.sends_blocks() => command.length,
            _ if command.int_data() && command.list_length > 0 => command.length,
            _ => 0,
        };
        let bytes = self.shelf.geometry.bytes(blocks);
        if bytes <= MOST_BYTES {
            data.extend_from_slice(&self.random.bytes(bytes));
        }
        if self.random.one_in(24) {
            let other = self.random.below(data.len() as u64 + 9);
            let near = data.len() as u64 + 1 - 2 * self.random.below(2).min(data.len() as u64);
            let length = self.random.number(&[0, near, near, other]);
            data.resize(length as usize, 0xA5);
        }
        data
    }

    /// A receive room that is exact, larger or, now and then, too short.
    fn room(&mut self, draft: &Draft) -> Vec<u8> {
        let blocks = match draft.command.op.fills_room() {
            true => draft.command.length,
            false => 0,
        };
        let due = self.shelf.geometry.bytes(blocks).min(MOST_BYTES);
        let length = match self.random.below(16) {
            0 => due.saturating_sub(1),
            1 => self.random.below(due),
            2..=7 => due + self.random.below(9),
            _ => due,
        };
        self.random.bytes(length)
    }

    /// A sense room that is exact, larger or, now and then, too short.
    fn sense(&mut self) -> Vec<u8> {
        let size = SENSE_SIZE as u64;
        let length = match self.random.below(48) {
            0 => size - 1,
            1 => self.random.below(size),
            2..=11 => size + self.random.below(20),
            _ => size,
        };
        self.random.bytes(length)
    }

    /// Up to `most` blocks that all lie on the drive; often few.
    pub fn blocks(&mut self, most: u64) -> (u64, u64) {
        let blocks = self.shelf.geometry.blocks;
        let longest = most.min(blocks);
        let length = match self.random.below(8) {
            0 => longest,
            1 => self.random.between(1, longest),
            _ => self.random.between(1, longest.min(3)),
        };
        let block = match self.random.below(4) {
            0 => 0,
            1 => blocks - length,
            _ => self.random.below(blocks - length + 1),
        };
        (block, length)
    }

    /// A block for another drive: mostly the same, else any that fits.
    pub fn block_for(&mut self, block: u64, length: u64) -> u64 {
        let last = self.shelf.geometry.blocks.saturating_sub(length);
        if self.random.one_in(3) {
            self.random.between(0, last)
        } else {
            block
        }
    }

    /// DPO and FUA, which "are read and ignored".
    fn cache_bits(&mut self) -> u8 {
        (self.random.below(4) as u8) << 3
    }
}
