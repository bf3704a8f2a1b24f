//! Calls through the C interface.

use crate::c::{shelf_mark, shelf_reset, shelf_step};
use crate::lent::Lent;
use second::{Call, Outcome, StepCall, StepOutcome};

/// How a buffer of no bytes is lent.
#[derive(Clone, Copy, PartialEq, Eq, Debug)]
pub enum Empty {
    /// As a place between guard bytes.
    Place,
    /// As NULL.
    Null,
}

impl Empty {
    pub fn pointer(self, lent: &mut Lent) -> *mut u8 {
        match self {
            Empty::Place => lent.place(),
            Empty::Null => lent.place_or_null(),
        }
    }
}

/// No byte count is this number, since counts are multiples of four.
const UNTOUCHED: u32 = 0xDEAD_BEEF;
const COUNT_GUARD: u32 = 0x5AA5_C33C;

/// Makes the call on the image through the C interface, and sees that nothing was written
/// but what the call may write.
pub fn through_c(image: &mut [u8], call: &Call, empty: Empty) -> Outcome {
    match call {
        Call::Step(call) => Outcome::Step(step(image, call, empty)),
        Call::Reset { target } => Outcome::Reset {
            // SAFETY: the pointer and the length are those of one buffer.
            number: on_image(image, empty, |place, length| unsafe {
                shelf_reset(place, length, *target)
            }),
        },
        Call::Mark { target, state } => Outcome::Mark {
            // SAFETY: as above.
            number: on_image(image, empty, |place, length| unsafe {
                shelf_mark(place, length, *target, *state)
            }),
        },
        Call::Rows => panic!("the row program is not in the C interface"),
    }
}

/// Lends the image to a call that takes nothing else.
fn on_image(image: &mut [u8], empty: Empty, call: impl Fn(*mut u8, usize) -> u32) -> u32 {
    let mut lent = Lent::new("image", image);
    let number = call(empty.pointer(&mut lent), lent.len());
    image.copy_from_slice(&lent.back());
    number
}

fn step(image: &mut [u8], call: &StepCall, empty: Empty) -> StepOutcome {
    let mut lent = Lent::new("image", image);
    let mut cdb = Lent::new("CDB", &call.cdb);
    let mut data = Lent::new("data-out bytes", &call.data);
    let mut room = Lent::new("receive room", &call.room);
    let mut sense = Lent::new("sense room", &call.sense);
    let mut count = [COUNT_GUARD, UNTOUCHED, COUNT_GUARD];
    // SAFETY: each pointer and length are those of one buffer, and no two share a byte.
    let number = unsafe {
        shelf_step(
            empty.pointer(&mut lent),
            lent.len(),
            call.target,
            empty.pointer(&mut cdb),
            cdb.len(),
            empty.pointer(&mut data),
            data.len(),
            empty.pointer(&mut room),
            room.len(),
            empty.pointer(&mut sense),
            sense.len(),
            &mut count[1],
        )
    };
    cdb.back_unchanged(&call.cdb);
    data.back_unchanged(&call.data);
    let [before, count, after] = count;
    assert_eq!([before, after], [COUNT_GUARD; 2], "beside the count");
    image.copy_from_slice(&lent.back());
    StepOutcome {
        number,
        count: (count != UNTOUCHED).then_some(count),
        room: room.back(),
        sense: sense.back(),
    }
}
