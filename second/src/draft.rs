//! A step before it is turned into bytes.

use crate::address::{Address, Block};
use crate::command::{Command, Op};

/// A source list, with what its head says apart from its entries.
#[derive(Clone, Debug)]
pub struct ListDraft {
    pub sources: u8,
    pub entry_type: u8,
    pub reserved: u16,
    pub own_block: u32,
    /// Address and block of each source.
    pub entries: Vec<(u32, u32)>,
}

impl ListDraft {
    /// A proper list.
    pub fn new(own_block: u64, entries: Vec<(u32, u32)>) -> ListDraft {
        ListDraft {
            sources: entries.len() as u8,
            entry_type: 1,
            reserved: 0,
            own_block: own_block as u32,
            entries,
        }
    }

    /// The bytes of the list, cut or filled up to `length`.
    pub fn bytes(&self, length: u64) -> Vec<u8> {
        let mut bytes = vec![self.sources, self.entry_type];
        bytes.extend_from_slice(&self.reserved.to_be_bytes());
        bytes.extend_from_slice(&self.own_block.to_be_bytes());
        for (address, block) in &self.entries {
            bytes.extend_from_slice(&address.to_be_bytes());
            bytes.extend_from_slice(&block.to_be_bytes());
        }
        bytes.resize(length as usize, 0);
        bytes
    }
}

/// A step that can still be changed field by field.
#[derive(Clone, Debug)]
pub struct Draft {
    pub target: u32,
    pub command: Command,
    pub list: ListDraft,
}

impl Draft {
    /// A draft with only its target, command, block and length set.
    pub fn new(target: u32, op: Op, block: u64, length: u64) -> Draft {
        Draft {
            target,
            command: Command {
                op,
                byte1: 0,
                byte6: 0,
                control: 0,
                block: Block(block),
                length,
                list_length: 0,
                secondary: Address(0),
                secondary_block: Block(0),
            },
            list: ListDraft::new(block, Vec::new()),
        }
    }

    /// The same with a list, whose length the CDB tells rightly.
    pub fn with_list(mut self, list: ListDraft) -> Draft {
        self.command.list_length = 8 + 8 * list.entries.len() as u64;
        self.list = list;
        self
    }

    /// The CDB of the draft.
    pub fn cdb(&self) -> Vec<u8> {
        let command = &self.command;
        let mut cdb = vec![command.op.code(), command.byte1];
        if command.op == Op::XdWrite {
            cdb.extend_from_slice(&(command.block.0 as u32).to_be_bytes());
            cdb.extend_from_slice(&(command.length as u16).to_be_bytes());
            cdb.extend_from_slice(&command.secondary.0.to_be_bytes()[1..]);
            cdb.extend_from_slice(&(command.secondary_block.0 as u32).to_be_bytes());
        } else {
            let (long, short) = if command.op.has_list() {
                (command.length, command.list_length)
            } else {
                (command.block.0, command.length)
            };
            cdb.extend_from_slice(&(long as u32).to_be_bytes());
            cdb.push(command.byte6);
            cdb.extend_from_slice(&(short as u16).to_be_bytes());
        }
        cdb.push(command.control);
        cdb
    }
}
