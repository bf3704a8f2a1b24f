//! A call as a value, and what comes of it.

use crate::calls::{decide_mark, has_results, mark, reset, step};
use crate::decide::{decide, find_target, Request};
use crate::good::Good;
use crate::refusal::Refusal;
use crate::rows::rows;
use crate::sense::SENSE_SIZE;

/// One step, without the image it is made on.
#[derive(Clone, PartialEq, Eq, Debug)]
pub struct StepCall {
    pub target: u32,
    pub cdb: Vec<u8>,
    pub data: Vec<u8>,
    /// The receive room as it is lent.
    pub room: Vec<u8>,
    /// The sense room as it is lent.
    pub sense: Vec<u8>,
}

/// What a step gives back, besides the image.
#[derive(Clone, PartialEq, Eq, Debug)]
pub struct StepOutcome {
    pub number: u32,
    /// Nothing where the step left the count alone.
    pub count: Option<u32>,
    pub room: Vec<u8>,
    pub sense: Vec<u8>,
}

/// One call, without the image it is made on.
#[derive(Clone, PartialEq, Eq, Debug)]
pub enum Call {
    Step(StepCall),
    Reset {
        target: u32,
    },
    Mark {
        target: u32,
        state: u32,
    },
    /// The row program on the image.
    Rows,
}

/// What a call gives back, besides the image.
#[derive(Clone, PartialEq, Eq, Debug)]
pub enum Outcome {
    Step(StepOutcome),
    Reset { number: u32 },
    Mark { number: u32 },
    Rows { text: String },
}

/// A call with the image it is made on.
#[derive(Clone, PartialEq, Eq, Debug)]
pub struct Case {
    pub image: Vec<u8>,
    pub call: Call,
}

/// Which refusal or which kind of GOOD decided a call.
#[derive(Clone, Copy, PartialEq, Eq, PartialOrd, Ord, Hash, Debug)]
pub enum Reached {
    Refused(Refusal),
    Good(Good),
}

/// No byte count is this number, since counts are multiples of four.
const UNTOUCHED: u32 = 0xDEAD_BEEF;

impl StepCall {
    /// Makes the step on an image.
    pub fn run(&self, image: &mut [u8]) -> StepOutcome {
        let mut count = UNTOUCHED;
        let mut room = self.room.clone();
        let mut sense = self.sense.clone();
        let number = step(
            image,
            self.target,
            &self.cdb,
            &self.data,
            &mut room,
            &mut sense,
            &mut count,
        );
        StepOutcome {
            number,
            count: (count != UNTOUCHED).then_some(count),
            room,
            sense,
        }
    }

    fn reached(&self, image: &[u8]) -> Result<Good, Refusal> {
        if self.sense.len() < SENSE_SIZE {
            return Err(Refusal::SenseRoomShort);
        }
        let request = Request {
            image,
            target: self.target,
            cdb: &self.cdb,
            data: &self.data,
            room: self.room.len(),
        };
        let (shelf, act) = decide(&request)?;
        Ok(act.good(&shelf))
    }
}

impl Call {
    /// Makes the call on an image.
    pub fn run(&self, image: &mut [u8]) -> Outcome {
        match self {
            Call::Step(step) => Outcome::Step(step.run(image)),
            Call::Reset { target } => Outcome::Reset {
                number: reset(image, *target),
            },
            Call::Mark { target, state } => Outcome::Mark {
                number: mark(image, *target, *state),
            },
            Call::Rows => Outcome::Rows { text: rows(image) },
        }
    }

    /// What decides the call; nothing for the row program, which has no checks.
    pub fn reached(&self, image: &[u8]) -> Option<Reached> {
        let decided = match self {
            Call::Step(step) => step.reached(image),
            Call::Reset { target } => reset_reached(image, *target),
            Call::Mark { target, state } => mark_reached(image, *target, *state),
            Call::Rows => return None,
        };
        Some(match decided {
            Ok(good) => Reached::Good(good),
            Err(refusal) => Reached::Refused(refusal),
        })
    }
}

fn reset_reached(image: &[u8], target: u32) -> Result<Good, Refusal> {
    let (shelf, drive) = find_target(image, target)?;
    if has_results(&shelf, drive) {
        Ok(Good::ResetDropped)
    } else {
        Ok(Good::ResetNothing)
    }
}

fn mark_reached(image: &[u8], target: u32, state: u32) -> Result<Good, Refusal> {
    let (_, _, failed) = decide_mark(image, target, state)?;
    if failed {
        Ok(Good::MarkedFailed)
    } else {
        Ok(Good::MarkedPresent)
    }
}
