//! Random drives and source lists.

use crate::command::{Op, INT_DATA, TO_THE_END};
use crate::draft::{Draft, ListDraft};
use crate::random_call::Maker;
use crate::shelf::Drive;

impl Maker<'_> {
    /// REBUILD or REGENERATE.
    pub fn listed(&mut self, op: Op) -> Draft {
        let most = match op {
            Op::Rebuild => self.shelf.geometry.blocks,
            _ => self.shelf.geometry.slot_blocks,
        };
        let (block, mut length) = self.blocks(most);
        let target = self.present();
        let mut byte1 = self.random.number(&[0, 0, 2]) as u8;
        let mut to_the_end = false;
        match self.random.below(4) {
            0 => byte1 |= INT_DATA,
            1 if op == Op::Rebuild => to_the_end = true,
            _ => {}
        }
        if to_the_end {
            length = self.shelf.geometry.blocks - block;
        }
        let entries = self.entries(target, block, length);
        if to_the_end {
            length = TO_THE_END;
        }
        let mut draft = Draft::new(self.address(target), op, block, length);
        draft.command.byte1 = byte1;
        draft.with_list(ListDraft::new(block, entries))
    }

    /// All other drives in some order, or any drives at any blocks.
    fn entries(&mut self, target: usize, block: u64, length: u64) -> Vec<(u32, u32)> {
        let mut drives: Vec<usize> = (0..self.shelf.drives.len())
            .filter(|drive| *drive != target)
            .collect();
        self.random.shuffle(&mut drives);
        if !self.random.one_in(3) {
            let whole_row = drives.iter();
            return whole_row
                .map(|drive| (self.address(*drive), block as u32))
                .collect();
        }
        let count = match self.random.below(64) {
            0 => self.random.between(1, 255),
            _ => self.random.between(1, 4),
        };
        (0..count)
            .map(|_| {
                let drive = self.other_than(target);
                let block = self.block_for(block, length);
                (self.address(drive), block as u32)
            })
            .collect()
    }

    /// The index of a present drive, or of any if none is present.
    pub fn present(&mut self) -> usize {
        self.drive_where(|_, drive| !drive.failed)
    }

    /// The index of a failed drive, or of any if none has failed.
    pub fn failed(&mut self) -> usize {
        self.drive_where(|_, drive| drive.failed)
    }

    /// The index of a drive that is not the given one, mostly a present one.
    pub fn other_than(&mut self, target: usize) -> usize {
        let careless = self.random.one_in(8);
        self.drive_where(|index, drive| index != target && (careless || !drive.failed))
    }

    /// The address of a drive.
    pub fn address(&self, drive: usize) -> u32 {
        self.shelf.drives[drive].address.0
    }

    /// An address that no drive has; now and then one above FFFFFFh whose low
    /// three bytes are a drive's.
    pub fn unknown(&mut self) -> u32 {
        let mut address = self.random.below(1 << 24) as u32;
        while self.shelf.drives.iter().any(|d| d.address.0 == address) {
            address = (address + 1) % (1 << 24);
        }
        if self.random.one_in(2) {
            let drive = self.present();
            address = self.address(drive) | 1 << self.random.between(24, 31);
        }
        address
    }

    /// The address of any drive, or now and then of none.
    pub fn any_target(&mut self) -> u32 {
        if self.random.one_in(12) {
            return self.unknown();
        }
        let drive = self.drive_where(|_, _| true);
        self.address(drive)
    }

    fn drive_where(&mut self, wanted: impl Fn(usize, &Drive) -> bool) -> usize {
        let drives = self.shelf.drives.iter().enumerate();
        let wanted: Vec<usize> = drives
            .filter(|(index, drive)| wanted(*index, drive))
            .map(|(index, _)| index)
            .collect();
        match self.random.pick(&wanted) {
            Some(drive) => drive,
            None => self.random.below(self.shelf.geometry.drives) as usize,
        }
    }
}
