//! Checks 1 to 11: "The first that applies decides".
//!
//! Checks 1 and 2 stand here, 3 to 6 in `check_fields` and 7 to 11 in
//! `check_places`. Here is also the order: after check 6 each command has a
//! function that goes through the checks it has, in ascending order; the number
//! behind a line is the check it makes.

use crate::act::Act;
use crate::address::Address;
use crate::command::{Command, Op, RETAIN, TO_THE_END};
use crate::good::Good;
use crate::refusal::Refusal;
use crate::shelf::Shelf;

/// What a step is asked to do.
pub struct Request<'a> {
    pub image: &'a [u8],
    pub target: u32,
    pub cdb: &'a [u8],
    pub data: &'a [u8],
    pub room: usize,
}

/// The decoded shelf and the act to carry out on it, or why not.
pub fn decide(request: &Request) -> Result<(Shelf, Act), Refusal> {
    let (shelf, drive) = find_target(request.image, request.target)?;
    let command = read_command(request.cdb)?;
    let step = Step {
        shelf: &shelf,
        drive,
        command,
        data: request.data,
        room: request.room as u64,
    };
    let act = step.decide()?;
    Ok((shelf, act))
}

/// Check 1, calls 1 and 2; reset and marking begin with them too.
pub fn find_target(image: &[u8], target: u32) -> Result<(Shelf, usize), Refusal> {
    let shelf = Shelf::read(image).ok_or(Refusal::NotAShelf)?;
    let drive = shelf.find(Address(target)).ok_or(Refusal::NoSuchTarget)?;
    Ok((shelf, drive))
}

/// Check 1, call 3, and check 2.
fn read_command(cdb: &[u8]) -> Result<Command, Refusal> {
    let code = *cdb.first().ok_or(Refusal::EmptyCdb)?;
    match Op::of(code) {
        None => Err(Refusal::UnknownCode),
        Some(op) if cdb.len() != op.cdb_length() => Err(Refusal::CdbLength),
        Some(op) => Ok(Command::read(op, cdb)),
    }
}

/// A command that was found well-formed, for a target that exists.
pub struct Step<'a> {
    pub shelf: &'a Shelf,
    pub drive: usize,
    pub command: Command,
    pub data: &'a [u8],
    pub room: u64,
}

impl Step<'_> {
    fn decide(&self) -> Result<Act, Refusal> {
        self.target_present()?; // 3
        self.fields()?; // 4
        self.data_count()?; // 5
        if let Some(good) = self.nothing_asked() {
            return Ok(Act::Nothing(good)); // 6
        }
        match self.command.op {
            Op::Read => self.read(),
            Op::Write => Ok(Act::Write(self.in_range(self.command.block)?)), // 8
            Op::XpWrite | Op::XpWrite10 => {
                Ok(Act::XorWrite(self.in_range(self.command.block)?)) // 8
            }
            Op::XdWrite => self.xdwrite(),
            Op::XdWrite10 => self.xdwrite10(),
            Op::XdRead | Op::XdRead10 => self.xdread(),
            Op::XdWriteRead10 => self.xdwriteread10(),
            Op::Rebuild => self.rebuild(),
            Op::Regenerate => self.regenerate(),
        }
    }

    fn read(&self) -> Result<Act, Refusal> {
        let at = self.in_range(self.command.block)?; // 8
        self.room_for(at.length)?; // 11
        Ok(Act::Read(at))
    }

    fn xdwrite(&self) -> Result<Act, Refusal> {
        let mirror = self.command.mirror();
        let write = !self.command.ndisc();
        let at = self.in_range(self.command.block)?; // 8
        if self.command.sec_ctl() == RETAIN {
            let slot = self.empty_slot()?; // 9
            return Ok(Act::Retain {
                at,
                slot,
                mirror,
                write,
            });
        }
        let to = self.secondary()?; // 10
        Ok(Act::Send { at, to, mirror })
    }

    /// "50h always retains."
    fn xdwrite10(&self) -> Result<Act, Refusal> {
        let at = self.in_range(self.command.block)?; // 8
        let slot = self.empty_slot()?; // 9
        Ok(Act::Retain {
            at,
            slot,
            mirror: false,
            write: !self.command.disable_write(),
        })
    }

    /// 53h "takes no slot", so there is no check 9.
    fn xdwriteread10(&self) -> Result<Act, Refusal> {
        let at = self.in_range(self.command.block)?; // 8
        self.room_for(at.length)?; // 11
        let write = !self.command.disable_write();
        Ok(Act::HandOver { at, write })
    }

    fn xdread(&self) -> Result<Act, Refusal> {
        let slot = self.associated()?; // 8
        self.room_for(self.command.length)?; // 11
        Ok(Act::Fetch { slot })
    }

    fn rebuild(&self) -> Result<Act, Refusal> {
        let to_the_end = self.to_the_end();
        let list = self.list()?; // 7
        if self.command.length == 0 {
            return Ok(Act::Nothing(Good::ZeroLengthWithList)); // 7
        }
        let at = if to_the_end {
            self.up_to_the_end(list.own_block)? // 8
        } else {
            self.in_range(list.own_block)? // 8
        };
        let operands = self.operands(&list, at.length)?; // 10
        Ok(Act::Rebuild {
            at,
            operands,
            to_the_end,
        })
    }

    fn regenerate(&self) -> Result<Act, Refusal> {
        let list = self.list()?; // 7
        if self.command.length == 0 {
            return Ok(Act::Nothing(Good::ZeroLengthWithList)); // 7
        }
        let at = self.in_range(list.own_block)?; // 8
        let slot = self.empty_slot()?; // 9
        let operands = self.operands(&list, at.length)?; // 10
        Ok(Act::Regenerate { at, slot, operands })
    }

    /// Whether this is a REBUILD FFFFFFFFh.
    pub fn to_the_end(&self) -> bool {
        self.command.op == Op::Rebuild && self.command.length == TO_THE_END
    }

    /// The target's address.
    pub fn address(&self) -> Address {
        self.shelf.drives[self.drive].address
    }
}
