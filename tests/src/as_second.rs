//! The calls of `second` by its own names, made so that they must agree.

use crate::agree::agree;
use second::{Outcome, Reached, StepOutcome};

/// A step as `second` has it.
#[derive(Clone, PartialEq, Eq, Debug)]
pub struct StepCall {
    pub target: u32,
    pub cdb: Vec<u8>,
    pub data: Vec<u8>,
    pub room: Vec<u8>,
    pub sense: Vec<u8>,
}

impl StepCall {
    pub fn run(&self, image: &mut [u8]) -> StepOutcome {
        match agree(image, &self.of_second()) {
            Outcome::Step(outcome) => outcome,
            other => panic!("a step came to {other:?}"),
        }
    }

    fn of_second(&self) -> second::Call {
        let StepCall {
            target,
            cdb,
            data,
            room,
            sense,
        } = self.clone();
        second::Call::Step(second::StepCall {
            target,
            cdb,
            data,
            room,
            sense,
        })
    }
}

/// A call as `second` has it.
#[derive(Clone, PartialEq, Eq, Debug)]
pub enum Call {
    Step(StepCall),
}

impl Call {
    pub fn reached(&self, image: &[u8]) -> Option<Reached> {
        let Call::Step(step) = self;
        step.of_second().reached(image)
    }
}

pub fn step(
    image: &mut [u8],
    target: u32,
    cdb: &[u8],
    data: &[u8],
    room: &mut [u8],
    sense: &mut [u8],
    count: &mut u32,
) -> u32 {
    let call = StepCall {
        target,
        cdb: cdb.to_vec(),
        data: data.to_vec(),
        room: room.to_vec(),
        sense: sense.to_vec(),
    };
    let outcome = call.run(image);
    room.copy_from_slice(&outcome.room);
    sense.copy_from_slice(&outcome.sense);
    *count = outcome.count.unwrap_or(*count);
    outcome.number
}

pub fn reset(image: &mut [u8], target: u32) -> u32 {
    number(agree(image, &second::Call::Reset { target }))
}

pub fn mark(image: &mut [u8], target: u32, state: u32) -> u32 {
    number(agree(image, &second::Call::Mark { target, state }))
}

fn number(outcome: Outcome) -> u32 {
    match outcome {
        Outcome::Reset { number } | Outcome::Mark { number } => number,
        other => panic!("a reset or a marking came to {other:?}"),
    }
}
