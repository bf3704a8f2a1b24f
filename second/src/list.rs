//! The list of a REBUILD or REGENERATE and check 7.

use crate::address::{Address, Block};
use crate::bytes::{number, number32};
use crate::refusal::Refusal;

/// One source entry, "address, block".
#[derive(Clone, Copy, PartialEq, Eq, Debug)]
pub struct Source {
    pub address: Address,
    pub block: Block,
}

/// A list that has passed check 7.
#[derive(Clone, PartialEq, Eq, Debug)]
pub struct List {
    pub own_block: Block,
    pub sources: Vec<Source>,
}

impl List {
    /// Check 7 on the bytes of a list that is not empty.
    pub fn read(list: &[u8], target: Address) -> Result<List, Refusal> {
        if list.len() < 8 {
            return Err(Refusal::ListBelowEight);
        }
        let sources = usize::from(list[0]);
        if list.len() != 8 + 8 * sources {
            return Err(Refusal::ListLength);
        }
        if sources == 0 {
            return Err(Refusal::NoSources);
        }
        if list[1] != 1 {
            return Err(Refusal::EntryType);
        }
        if list[2..4] != [0, 0] {
            return Err(Refusal::ListReserved);
        }
        let sources: Vec<Source> = list[8..].chunks_exact(8).map(read_source).collect();
        // All entries are looked at here, before check 10 looks at the first.
        if sources.iter().any(|source| source.address == target) {
            return Err(Refusal::SourceIsTarget);
        }
        Ok(List {
            own_block: Block(number(&list[4..8])),
            sources,
        })
    }
}

fn read_source(entry: &[u8]) -> Source {
    Source {
        address: Address(number32(&entry[0..4])),
        block: Block(number(&entry[4..8])),
    }
}
