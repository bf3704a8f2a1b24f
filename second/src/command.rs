//! The commands and the fields of their CDBs.

use crate::address::{Address, Block};
use crate::bytes::{number, number32};

/// Sec Ctl 01, the other port, which a card with one port does not have.
pub const OTHER_PORT: u8 = 1;
/// Sec Ctl 11, which retains an XDWRITE's result.
pub const RETAIN: u8 = 3;
/// The length of a REBUILD that goes to the last block.
pub const TO_THE_END: u64 = 0xFFFF_FFFF;

/// XDWRITE byte 1, bit 6.
pub const MIRROR: u8 = 0x40;
/// XDWRITE byte 1, bit 5.
pub const NDISC: u8 = 0x20;
/// REBUILD and REGENERATE byte 1, bit 2.
pub const INT_DATA: u8 = 0x04;
/// XDWRITE(10) and XDWRITEREAD(10) byte 1, bit 2.
pub const DISABLE_WRITE: u8 = 0x04;

/// The seven commands of 01, and the four of A1.
#[derive(Clone, Copy, PartialEq, Eq, Debug)]
pub enum Op {
    XdWrite,
    XpWrite,
    XdRead,
    Rebuild,
    Regenerate,
    Read,
    Write,
    XdWrite10,
    XpWrite10,
    XdRead10,
    XdWriteRead10,
}

impl Op {
    pub const ALL: [Op; 11] = [
        Op::XdWrite,
        Op::XpWrite,
        Op::XdRead,
        Op::Rebuild,
        Op::Regenerate,
        Op::Read,
        Op::Write,
        Op::XdWrite10,
        Op::XpWrite10,
        Op::XdRead10,
        Op::XdWriteRead10,
    ];

    /// The operation code of the command.
    pub fn code(self) -> u8 {
        match self {
            Op::XdWrite => 0xC0,
            Op::XpWrite => 0xC1,
            Op::XdRead => 0xC2,
            Op::Rebuild => 0xC3,
            Op::Regenerate => 0xC4,
            Op::Read => 0x28,
            Op::Write => 0x2A,
            Op::XdWrite10 => 0x50,
            Op::XpWrite10 => 0x51,
            Op::XdRead10 => 0x52,
            Op::XdWriteRead10 => 0x53,
        }
    }

    /// The command of an operation code, if it is a known one.
    pub fn of(code: u8) -> Option<Op> {
        Op::ALL.into_iter().find(|op| op.code() == code)
    }

    /// How many bytes its CDB has.
    pub fn cdb_length(self) -> usize {
        if self == Op::XdWrite {
            16
        } else {
            10
        }
    }

    /// The bits of byte 1 that may be one.
    pub fn free_bits(self) -> u8 {
        match self {
            Op::XdWrite => 0b0111_1110,
            Op::Rebuild | Op::Regenerate => 0b0000_0111,
            Op::XpWrite | Op::Read | Op::Write => 0b0001_1000,
            Op::XdRead => 0,
            // A1: "bit 4 DPO and 3 FUA (not 52h), 2 DISABLE WRITE (50h, 53h)".
            Op::XdWrite10 | Op::XdWriteRead10 => 0b0001_1100,
            Op::XpWrite10 => 0b0001_1000,
            Op::XdRead10 => 0,
        }
    }

    /// Whether M, the size of a slot, limits its length: A1 says so of 53h
    /// though it "takes no slot".
    pub fn limited(self) -> bool {
        match self {
            Op::XdWrite | Op::XpWrite | Op::Regenerate => true,
            Op::XdWrite10 | Op::XpWrite10 | Op::XdWriteRead10 => true,
            Op::XdRead | Op::XdRead10 | Op::Rebuild | Op::Read | Op::Write => false,
        }
    }

    /// Whether its data-out bytes are its blocks, "length*L".
    pub fn sends_blocks(self) -> bool {
        match self {
            Op::XdWrite | Op::XpWrite | Op::Write => true,
            Op::XdWrite10 | Op::XpWrite10 | Op::XdWriteRead10 => true,
            Op::XdRead | Op::XdRead10 | Op::Read => false,
            Op::Rebuild | Op::Regenerate => false,
        }
    }

    /// Whether it hands its blocks to the receive room.
    pub fn fills_room(self) -> bool {
        matches!(
            self,
            Op::Read | Op::XdRead | Op::XdRead10 | Op::XdWriteRead10
        )
    }

    /// Whether a list comes with the command.
    pub fn has_list(self) -> bool {
        matches!(self, Op::Rebuild | Op::Regenerate)
    }
}

/// A CDB, field by field; a field that its command lacks is zero.
#[derive(Clone, Copy, PartialEq, Eq, Debug)]
pub struct Command {
    pub op: Op,
    pub byte1: u8,
    pub byte6: u8,
    pub control: u8,
    pub block: Block,
    pub length: u64,
    pub list_length: u64,
    pub secondary: Address,
    pub secondary_block: Block,
}

impl Command {
    /// The fields of a CDB that has the length of its command.
    pub fn read(op: Op, cdb: &[u8]) -> Command {
        let mut command = Command {
            op,
            byte1: cdb[1],
            byte6: 0,
            control: cdb[cdb.len() - 1],
            block: Block(0),
            length: 0,
            list_length: 0,
            secondary: Address(0),
            secondary_block: Block(0),
        };
        if op == Op::XdWrite {
            command.block = Block(number(&cdb[2..6]));
            command.length = number(&cdb[6..8]);
            command.secondary = Address(number32(&cdb[8..11]));
            command.secondary_block = Block(number(&cdb[11..15]));
            return command;
        }
        command.byte6 = cdb[6];
        if op.has_list() {
            command.length = number(&cdb[2..6]);
            command.list_length = number(&cdb[7..9]);
        } else {
            command.block = Block(number(&cdb[2..6]));
            command.length = number(&cdb[7..9]);
        }
        command
    }

    /// Mirror, of an XDWRITE.
    pub fn mirror(&self) -> bool {
        self.op == Op::XdWrite && self.byte1 & MIRROR != 0
    }

    /// NDisc, of an XDWRITE.
    pub fn ndisc(&self) -> bool {
        self.op == Op::XdWrite && self.byte1 & NDISC != 0
    }

    /// DISABLE WRITE, of an XDWRITE(10) or XDWRITEREAD(10).
    pub fn disable_write(&self) -> bool {
        matches!(self.op, Op::XdWrite10 | Op::XdWriteRead10) && self.byte1 & DISABLE_WRITE != 0
    }

    /// Int Data, of a REBUILD or REGENERATE.
    pub fn int_data(&self) -> bool {
        self.op.has_list() && self.byte1 & INT_DATA != 0
    }

    /// Sec Ctl: "2-1" in an XDWRITE, "1-0" in a REBUILD or REGENERATE.
    pub fn sec_ctl(&self) -> u8 {
        match self.op {
            Op::XdWrite => (self.byte1 >> 1) & 3,
            Op::Rebuild | Op::Regenerate => self.byte1 & 3,
            _ => 0,
        }
    }
}
