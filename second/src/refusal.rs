//! Every way in which a call is refused, one for each clause of 01.

use crate::listed::listed;
use crate::sense::{Codes, Sense};

listed! {
    /// Why a call was refused, in the order of the checks.
    Refusal {
        /// The C sense room has fewer than 37 bytes.
        SenseRoomShort,
        /// Check 1: the image is not valid.
        NotAShelf,
        /// Check 1: no drive has the target's address.
        NoSuchTarget,
        /// Check 1: the CDB has no bytes.
        EmptyCdb,
        /// Check 1: a known code with another length.
        CdbLength,
        /// Marking: the state is not 0 or 1.
        BadState,
        /// Check 2: unknown code.
        UnknownCode,
        /// Check 3: the target has failed.
        TargetFailed,
        /// Check 4: a bit of byte 1 that must be zero.
        ReservedByte1,
        /// Check 4: byte 6 of a 10-byte command is not zero.
        ReservedByte6,
        /// Check 4: the control byte is not zero.
        ControlByte,
        /// Check 4: Sec Ctl 01.
        OtherPort,
        /// Check 4: Sec Ctl 11 in REBUILD or REGENERATE.
        RetainInList,
        /// Check 4: NDisc without Sec Ctl 11.
        NDiscWithoutRetain,
        /// Check 4: the secondary address is the target's.
        SecondaryIsTarget,
        /// Check 4: the length is above M, in a command that it limits.
        LengthAboveSlot,
        /// Check 4: REBUILD FFFFFFFFh with Int Data.
        ToTheEndWithIntData,
        /// Check 5: the data-out bytes are not the exact count.
        DataCount,
        /// Check 7: list length below 8.
        ListBelowEight,
        /// Check 7: list length not 8 + 8*sources.
        ListLength,
        /// Check 7: no sources.
        NoSources,
        /// Check 7: type not 01.
        EntryType,
        /// Check 7: bytes 2-3 not zero.
        ListReserved,
        /// Check 7: a source that is the target.
        SourceIsTarget,
        /// Check 8: XDREAD of either set without a match.
        NoResult,
        /// Check 8: XDREAD of either set, and the result has another length.
        OtherLength,
        /// Check 8: block + length above B.
        OutOfRange,
        /// Check 8: REBUILD FFFFFFFFh with block at or above B.
        EndOutOfRange,
        /// Check 9: something to retain and no empty slot.
        NoEmptySlot,
        /// Check 10: the secondary address is not in the table.
        SecondaryUnknown,
        /// Check 10: the secondary has failed.
        SecondaryFailed,
        /// Check 10: the secondary range is beyond B.
        SecondaryOutOfRange,
        /// Check 10: a source address is not in the table.
        SourceUnknown,
        /// Check 10: a source has failed.
        SourceFailed,
        /// Check 10: a source range is beyond B.
        SourceOutOfRange,
        /// Check 11: the receive room is too short.
        ReceiveRoomShort,
    }
}

const GONE: Codes = Codes(0x02, 0x04, 0x00);
const BAD_RANGE: Codes = Codes(0x05, 0x21, 0x00);
const BAD_CODE: Codes = Codes(0x05, 0x20, 0x00);
const BAD_FIELD: Codes = Codes(0x05, 0x24, 0x00);
const BAD_LIST_LENGTH: Codes = Codes(0x05, 0x1A, 0x00);
const BAD_LIST: Codes = Codes(0x05, 0x26, 0x00);

const CHECK_CONDITION: u32 = 0x02;
const BUSY: u32 = 0x08;

/// The number that goes back to the caller, and the sense with it.
#[derive(Clone, Copy, PartialEq, Eq, Debug)]
pub struct Answer {
    pub number: u32,
    pub sense: Sense,
}

impl Answer {
    fn call(number: u32) -> Answer {
        Answer {
            number: 256 + number,
            sense: Sense::none(),
        }
    }

    fn busy() -> Answer {
        Answer {
            number: BUSY,
            sense: Sense::none(),
        }
    }

    fn check(sense: Sense) -> Answer {
        Answer {
            number: CHECK_CONDITION,
            sense,
        }
    }
}

impl Refusal {
    /// The number that `step`, `reset` or `mark` answers with.
    pub fn number(self) -> u32 {
        self.answer().number
    }

    /// The sense bytes that count: 0, 18, 36 or 37 of them.
    pub fn sense(self) -> Vec<u8> {
        let sense = self.answer().sense;
        sense.bytes[..sense.length].to_vec()
    }

    pub(crate) fn answer(self) -> Answer {
        use Refusal::*;
        match self {
            NotAShelf => Answer::call(1),
            NoSuchTarget => Answer::call(2),
            EmptyCdb | CdbLength => Answer::call(3),
            DataCount => Answer::call(4),
            SenseRoomShort | ReceiveRoomShort => Answer::call(5),
            BadState => Answer::call(6),
            NoEmptySlot => Answer::busy(),
            UnknownCode => Answer::check(Sense::plain(BAD_CODE)),
            TargetFailed => Answer::check(Sense::plain(GONE)),
            ReservedByte1 | ReservedByte6 | ControlByte | OtherPort | RetainInList
            | NDiscWithoutRetain | SecondaryIsTarget | LengthAboveSlot | ToTheEndWithIntData
            | NoResult | OtherLength => Answer::check(Sense::plain(BAD_FIELD)),
            ListBelowEight | ListLength => Answer::check(Sense::plain(BAD_LIST_LENGTH)),
            NoSources | EntryType | ListReserved | SourceIsTarget => {
                Answer::check(Sense::plain(BAD_LIST))
            }
            OutOfRange | EndOutOfRange => Answer::check(Sense::plain(BAD_RANGE)),
            SecondaryUnknown | SourceUnknown => Answer::check(Sense::unknown_address()),
            SecondaryFailed | SourceFailed => Answer::check(Sense::nested(GONE)),
            SecondaryOutOfRange | SourceOutOfRange => Answer::check(Sense::nested(BAD_RANGE)),
        }
    }
}
