//! Checks 3 to 6: the state of the target, the fields of the CDB, the number of
//! data-out bytes, and whether anything is asked for at all.

use crate::command::{Op, OTHER_PORT, RETAIN};
use crate::decide::Step;
use crate::good::Good;
use crate::refusal::Refusal;

impl Step<'_> {
    /// Check 3.
    pub fn target_present(&self) -> Result<(), Refusal> {
        if self.shelf.drives[self.drive].failed {
            return Err(Refusal::TargetFailed);
        }
        Ok(())
    }

    /// Check 4, in the order of its clauses.
    pub fn fields(&self) -> Result<(), Refusal> {
        self.zero_bits()?;
        self.sec_ctl()?;
        let command = &self.command;
        if command.op.limited() && command.length > self.shelf.geometry.slot_blocks {
            return Err(Refusal::LengthAboveSlot);
        }
        if self.to_the_end() && command.int_data() {
            return Err(Refusal::ToTheEndWithIntData);
        }
        Ok(())
    }

    /// Check 4, "a bit that must be zero".
    fn zero_bits(&self) -> Result<(), Refusal> {
        let command = &self.command;
        if command.byte1 & !command.op.free_bits() != 0 {
            return Err(Refusal::ReservedByte1);
        }
        if command.byte6 != 0 {
            return Err(Refusal::ReservedByte6);
        }
        if command.control != 0 {
            return Err(Refusal::ControlByte);
        }
        Ok(())
    }

    /// Check 4, what Sec Ctl and the fields it governs may say.
    fn sec_ctl(&self) -> Result<(), Refusal> {
        let command = &self.command;
        let retain = command.sec_ctl() == RETAIN;
        if command.sec_ctl() == OTHER_PORT {
            return Err(Refusal::OtherPort);
        }
        if command.op.has_list() && retain {
            return Err(Refusal::RetainInList);
        }
        if command.ndisc() && !retain {
            return Err(Refusal::NDiscWithoutRetain);
        }
        let sends = command.op == Op::XdWrite && !retain;
        if sends && command.secondary == self.address() {
            return Err(Refusal::SecondaryIsTarget);
        }
        Ok(())
    }

    /// Check 5; it comes before any range, so the length may be any number.
    pub fn data_count(&self) -> Result<(), Refusal> {
        let command = &self.command;
        let blocks = self.shelf.geometry.bytes(command.length);
        let due = match command.op {
            op if op.sends_blocks() => blocks,
            Op::Rebuild | Op::Regenerate if command.list_length == 0 => 0,
            Op::Rebuild | Op::Regenerate if command.int_data() => command.list_length + blocks,
            Op::Rebuild | Op::Regenerate => command.list_length,
            _ => 0,
        };
        if self.data.len() as u64 != due {
            return Err(Refusal::DataCount);
        }
        Ok(())
    }

    /// Check 6; "52h follows XDREAD", which no zero length excuses.
    pub fn nothing_asked(&self) -> Option<Good> {
        let command = &self.command;
        match command.op {
            Op::Rebuild | Op::Regenerate => (command.list_length == 0).then_some(Good::NoList),
            Op::XdRead | Op::XdRead10 => None,
            _ => (command.length == 0).then_some(Good::ZeroLength),
        }
    }
}
