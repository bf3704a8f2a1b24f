//! Checks 7 to 11: the list, the blocks, the slot, the other drives and the
//! receive room.

use crate::act::Operands;
use crate::address::{Block, Extent};
use crate::decide::Step;
use crate::list::List;
use crate::refusal::Refusal;

impl Step<'_> {
    /// Check 7.
    pub fn list(&self) -> Result<List, Refusal> {
        List::read(self.split_data().0, self.address())
    }

    /// Check 8 of an XDREAD: the newest decides, "even where an older one fits".
    pub fn associated(&self) -> Result<usize, Refusal> {
        let slot = self
            .shelf
            .newest(self.drive, self.command.block)
            .ok_or(Refusal::NoResult)?;
        if u64::from(self.shelf.records[slot].length) != self.command.length {
            return Err(Refusal::OtherLength);
        }
        Ok(slot)
    }

    /// Check 8 of the others.
    pub fn in_range(&self, block: Block) -> Result<Extent, Refusal> {
        let length = self.command.length;
        if !self.shelf.geometry.holds(block.0, length) {
            return Err(Refusal::OutOfRange);
        }
        Ok(Extent {
            drive: self.drive,
            block,
            length,
        })
    }

    /// Check 8 of REBUILD FFFFFFFFh, which "means to the last block".
    pub fn up_to_the_end(&self, block: Block) -> Result<Extent, Refusal> {
        let blocks = self.shelf.geometry.blocks;
        if block.0 >= blocks {
            return Err(Refusal::EndOutOfRange);
        }
        Ok(Extent {
            drive: self.drive,
            block,
            length: blocks - block.0,
        })
    }

    /// Check 9.
    pub fn empty_slot(&self) -> Result<usize, Refusal> {
        self.shelf.empty_slot().ok_or(Refusal::NoEmptySlot)
    }

    /// Check 10 of an XDWRITE.
    pub fn secondary(&self) -> Result<Extent, Refusal> {
        let command = &self.command;
        let drive = self
            .shelf
            .find(command.secondary)
            .ok_or(Refusal::SecondaryUnknown)?;
        if self.shelf.drives[drive].failed {
            return Err(Refusal::SecondaryFailed);
        }
        let block = command.secondary_block;
        if !self.shelf.geometry.holds(block.0, command.length) {
            return Err(Refusal::SecondaryOutOfRange);
        }
        Ok(Extent {
            drive,
            block,
            length: command.length,
        })
    }

    /// Check 10 of a list, "the first source entry in list order that fails
    /// decides"; `length` is the resolved one.
    pub fn operands(&self, list: &List, length: u64) -> Result<Operands, Refusal> {
        let mut sources = Vec::new();
        for source in &list.sources {
            let drive = self
                .shelf
                .find(source.address)
                .ok_or(Refusal::SourceUnknown)?;
            if self.shelf.drives[drive].failed {
                return Err(Refusal::SourceFailed);
            }
            let block = source.block;
            if !self.shelf.geometry.holds(block.0, length) {
                return Err(Refusal::SourceOutOfRange);
            }
            sources.push(Extent {
                drive,
                block,
                length,
            });
        }
        let int_data = self.command.int_data();
        let data = int_data.then(|| self.split_data().1.to_vec());
        Ok(Operands { sources, data })
    }

    /// Check 11.
    pub fn room_for(&self, blocks: u64) -> Result<(), Refusal> {
        if self.room < self.shelf.geometry.bytes(blocks) {
            return Err(Refusal::ReceiveRoomShort);
        }
        Ok(())
    }

    /// The list and "the part of the data-out bytes that starts right after
    /// the list"; check 5 has seen to it that the list is all there.
    fn split_data(&self) -> (&[u8], &[u8]) {
        self.data.split_at(self.command.list_length as usize)
    }
}
