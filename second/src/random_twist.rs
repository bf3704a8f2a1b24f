//! Faults for calls that were sensible.

use crate::address::{Address, Block};
use crate::command::{Op, INT_DATA, TO_THE_END};
use crate::draft::Draft;
use crate::random_call::Maker;

impl Maker<'_> {
    /// Changes one thing in a draft.
    pub fn twist(&mut self, draft: &mut Draft) {
        let op = draft.command.op;
        match self.random.below(12) {
            0 | 1 => draft.command.byte1 ^= 1 << self.random.below(8),
            2 if self.random.one_in(2) => draft.command.control = 1 << self.random.below(8),
            2 => draft.command.byte6 = 1 << self.random.below(8),
            3 => {
                let drive = self.failed();
                draft.target = self.address(drive);
            }
            4 if self.random.one_in(2) => draft.target = self.unknown(),
            4 | 5 => self.twist_length(draft),
            6 | 7 => self.twist_block(draft),
            _ if op == Op::XdWrite => self.twist_secondary(draft),
            _ if op.has_list() => self.twist_list(draft),
            8 | 9 => self.twist_block(draft),
            _ => self.twist_length(draft),
        }
    }

    fn twist_length(&mut self, draft: &mut Draft) {
        let length = if self.random.one_in(3) {
            0
        } else {
            self.edge()
        };
        let widest = if draft.command.op.has_list() {
            0xFFFF_FFFF
        } else {
            0xFFFF
        };
        draft.command.length = length & widest;
    }

    fn twist_block(&mut self, draft: &mut Draft) {
        let block = self.edge();
        draft.command.block = Block(block);
        draft.list.own_block = block as u32;
    }

    fn twist_secondary(&mut self, draft: &mut Draft) {
        let command = &mut draft.command;
        match self.random.below(4) {
            0 => command.secondary = Address(draft.target),
            1 => command.secondary = Address(self.unknown() & 0xFF_FFFF),
            2 => {
                let drive = self.failed();
                command.secondary = Address(self.address(drive));
            }
            _ => command.secondary_block = Block(self.edge()),
        }
    }

    /// The head of the list, what the CDB says about it, or one entry.
    fn twist_list(&mut self, draft: &mut Draft) {
        let length = draft.command.list_length;
        let list = &mut draft.list;
        match self.random.below(16) {
            0 => list.entry_type = self.random.number(&[0, 2, 0x81]) as u8,
            1 => list.reserved = 1 << self.random.below(16),
            2 => list.sources = self.random.number(&[0, 1, 2, 255]) as u8,
            3 => {
                list.sources = 0;
                draft.command.list_length = 8;
            }
            4 => draft.command.list_length = 0,
            5 => draft.command.list_length = self.random.between(1, 7),
            6 => {
                let other = self.random.below(2_100);
                let (less, fewer) = (length.saturating_sub(1), length.saturating_sub(8));
                let lengths = [length + 1, less, length + 8, fewer, 8, other];
                draft.command.list_length = self.random.number(&lengths);
            }
            7 => draft.command.byte1 ^= INT_DATA,
            8 => {
                draft.command.byte1 |= INT_DATA;
                draft.command.length = TO_THE_END;
            }
            _ => self.twist_entry(draft),
        }
    }

    fn twist_entry(&mut self, draft: &mut Draft) {
        let place = self.random.below(draft.list.entries.len() as u64) as usize;
        let Some(entry) = draft.list.entries.get_mut(place) else {
            return;
        };
        match self.random.below(4) {
            0 => entry.0 = draft.target,
            1 => entry.0 = self.unknown(),
            2 => {
                let drive = self.failed();
                entry.0 = self.address(drive);
            }
            _ => entry.1 = self.edge() as u32,
        }
    }

    /// A CDB that is empty, of another length or of an unknown code.
    pub fn spoil_cdb(&mut self, cdb: &mut Vec<u8>) {
        match self.random.below(6) {
            0 => cdb.clear(),
            1 => cdb.truncate(cdb.len().saturating_sub(1)),
            2 => cdb.push(0),
            3 => cdb.resize(26 - cdb.len().min(26), 0),
            4 => cdb[0] = self.random.draw() as u8,
            _ => {
                let length = self.random.below(20);
                *cdb = self.random.bytes(length);
            }
        }
    }

    /// A number at the edge of a drive, of a slot or of a field.
    fn edge(&mut self) -> u64 {
        let blocks = self.shelf.geometry.blocks;
        let most = self.shelf.geometry.slot_blocks;
        let any = self.random.below(1 << 32);
        let near = self.random.below(blocks + 4);
        self.random.number(&[
            blocks - 1,
            blocks,
            blocks + 1,
            most,
            most + 1,
            0xFFFF,
            0x4000_0000,
            0xFFFF_FFFF,
            near,
            near,
            any,
        ])
    }
}
