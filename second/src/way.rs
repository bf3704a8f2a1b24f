//! Every way to decide a call, command by command.

use crate::case::{Call, Reached};
use crate::good::Good;
use crate::refusal::Refusal;

/// What decides a call, and the operation code where only known codes come to it.
#[derive(Clone, Copy, PartialEq, Eq, PartialOrd, Ord, Hash, Debug)]
pub struct Way {
    pub code: Option<u8>,
    pub reached: Reached,
}

const ALL: &[u8] = &[
    0xC0, 0xC1, 0xC2, 0xC3, 0xC4, 0x28, 0x2A, 0x50, 0x51, 0x52, 0x53,
];
const TEN_BYTES: &[u8] = &[0xC1, 0xC2, 0xC3, 0xC4, 0x28, 0x2A, 0x50, 0x51, 0x52, 0x53];
const XDWRITES: &[u8] = &[0xC0, 0x50];
const XDREADS: &[u8] = &[0xC2, 0x52];
const LISTED: &[u8] = &[0xC3, 0xC4];
const ZERO_LENGTHS: &[u8] = &[0xC0, 0xC1, 0x28, 0x2A, 0x50, 0x51, 0x53];

/// The codes that a refusal can come to; none where it does not depend on a known
/// code.
fn codes_refused(refusal: Refusal) -> &'static [u8] {
    use Refusal::*;
    match refusal {
        CdbLength | TargetFailed | ReservedByte1 | ControlByte | DataCount => ALL,
        ReservedByte6 => TEN_BYTES,
        OtherPort => &[0xC0, 0xC3, 0xC4],
        NDiscWithoutRetain | SecondaryIsTarget => &[0xC0],
        SecondaryUnknown | SecondaryFailed | SecondaryOutOfRange => &[0xC0],
        LengthAboveSlot => &[0xC0, 0xC1, 0xC4, 0x50, 0x51, 0x53],
        ToTheEndWithIntData | EndOutOfRange => &[0xC3],
        RetainInList | ListBelowEight | ListLength | NoSources | EntryType | ListReserved => LISTED,
        SourceIsTarget | SourceUnknown | SourceFailed | SourceOutOfRange => LISTED,
        NoResult | OtherLength => XDREADS,
        OutOfRange => &[0xC0, 0xC1, 0xC3, 0xC4, 0x28, 0x2A, 0x50, 0x51, 0x53],
        NoEmptySlot => &[0xC0, 0xC4, 0x50],
        ReceiveRoomShort => &[0xC2, 0x28, 0x52, 0x53],
        SenseRoomShort | NotAShelf | NoSuchTarget | EmptyCdb | BadState | UnknownCode => &[],
    }
}

/// The codes that a kind of GOOD can come to.
fn codes_good(good: Good) -> &'static [u8] {
    use Good::*;
    match good {
        ZeroLength => ZERO_LENGTHS,
        NoList | ZeroLengthWithList => LISTED,
        Read => &[0x28],
        Write => &[0x2A],
        XorWrite => &[0xC1, 0x51],
        XorSent | MirrorSent | MirrorRetained | MirrorRetainedOnly => &[0xC0],
        XorRetained | XorRetainedOnly => XDWRITES,
        FetchedXdWrite | FetchedRegenerate => XDREADS,
        XorHanded | XorHandedOnly => &[0x53],
        Rebuilt | RebuiltWithData | RebuiltToTheEnd => &[0xC3],
        Regenerated | RegeneratedWithData => &[0xC4],
        ResetDropped | ResetNothing | MarkedPresent | MarkedFailed => &[],
    }
}

/// The same of either; empty for what is decided without a known code.
fn codes(reached: Reached) -> &'static [u8] {
    match reached {
        Reached::Refused(refusal) => codes_refused(refusal),
        Reached::Good(good) => codes_good(good),
    }
}

impl Way {
    /// Every way that there is.
    pub fn all() -> Vec<Way> {
        let refusals = Refusal::ALL.iter().map(|one| Reached::Refused(*one));
        let goods = Good::ALL.iter().map(|one| Reached::Good(*one));
        let by_code = |reached| {
            let codes = codes(reached).iter().map(|code| Some(*code));
            let none = codes.len() == 0;
            codes
                .chain(none.then_some(None))
                .map(move |code| Way { code, reached })
        };
        refusals.chain(goods).flat_map(by_code).collect()
    }

    /// How a call is decided; nothing for the row program, which has no checks.
    pub fn of(call: &Call, image: &[u8]) -> Option<Way> {
        let reached = call.reached(image)?;
        let code = match call {
            Call::Step(step) if !codes(reached).is_empty() => step.cdb.first().copied(),
            _ => None,
        };
        Some(Way { code, reached })
    }
}
