//! What holds for every call: refusals move nothing, GOOD calls write nothing
//! but what 01 names, and a valid image stays valid.

use second::{Call, Good, Outcome, Reached, Refusal, Shelf, StepCall, StepOutcome};
use std::ops::Range;

/// Makes the call and holds its outcome against how it was decided.
pub fn check(image: &mut [u8], call: &Call) {
    let before = image.to_vec();
    let reached = call.reached(image);
    let outcome = call.run(image);
    match (&outcome, call, reached) {
        (Outcome::Step(outcome), Call::Step(step), Some(Reached::Refused(refusal))) => {
            assert_eq!(image, before, "{refusal:?} wrote the image");
            check_refused(step, outcome, refusal);
        }
        (Outcome::Step(outcome), Call::Step(step), Some(Reached::Good(good))) => {
            check_good(&before, step, outcome, good);
            check_written(&before, image, step, good);
        }
        (Outcome::Reset { number } | Outcome::Mark { number }, _, Some(reached)) => {
            let due = match reached {
                Reached::Refused(refusal) => refusal.number(),
                Reached::Good(_) => 0,
            };
            assert_eq!(*number, due);
            assert!(*number == 0 || image == before, "{reached:?} wrote");
        }
        (Outcome::Rows { .. }, Call::Rows, None) => assert_eq!(image, before),
        mixed => panic!("an outcome of another call: {mixed:?}"),
    }
    let (was, is) = (Shelf::read(&before), Shelf::read(image));
    assert_eq!(was.is_some(), is.is_some(), "{call:?} broke the shelf");
}

fn check_refused(step: &StepCall, outcome: &StepOutcome, refusal: Refusal) {
    assert_eq!(outcome.number, refusal.number(), "{refusal:?}");
    assert_ne!(outcome.number, 0, "{refusal:?}");
    assert_eq!(outcome.room, step.room, "{refusal:?} wrote the room");
    if refusal == Refusal::SenseRoomShort {
        assert_eq!(outcome.count, None);
        assert_eq!(outcome.sense, step.sense);
        return;
    }
    assert_eq!(outcome.count, Some(0), "{refusal:?}");
    let mut sense = refusal.sense();
    sense.resize(37, 0);
    sense.extend_from_slice(&step.sense[37..]);
    assert_eq!(outcome.sense, sense, "{refusal:?}");
}

fn check_good(image: &[u8], step: &StepCall, outcome: &StepOutcome, good: Good) {
    assert_eq!(outcome.number, 0, "{good:?}");
    assert_eq!(outcome.sense[..37], [0; 37], "{good:?}");
    assert_eq!(outcome.sense[37..], step.sense[37..], "{good:?}");
    let count = match good {
        Good::Read
        | Good::FetchedXdWrite
        | Good::FetchedRegenerate
        | Good::XorHanded
        | Good::XorHandedOnly => number(&step.cdb[7..9]) * field(image, 2),
        _ => 0,
    };
    assert_eq!(outcome.count, Some(count as u32), "{good:?}");
    assert_eq!(outcome.room[count..], step.room[count..], "{good:?}");
}

/// "only the named blocks of the media involved are written, besides the
/// slots", and the slots only by what retains or reads a result.
fn check_written(before: &[u8], after: &[u8], step: &StepCall, good: Good) {
    let mut places = named_blocks(before, step, good);
    if moves_results(good) {
        let slots = field(before, 6)..field(before, 7);
        assert_ne!(before[slots.clone()], after[slots.clone()], "{good:?}");
        places.push(slots);
    }
    for (at, (old, new)) in before.iter().zip(after).enumerate() {
        let named = places.iter().any(|range| range.contains(&at));
        assert!(old == new || named, "{good:?} wrote byte {at}");
    }
}

fn moves_results(good: Good) -> bool {
    use Good::*;
    matches!(
        good,
        XorRetained
            | MirrorRetained
            | XorRetainedOnly
            | MirrorRetainedOnly
            | Regenerated
            | RegeneratedWithData
            | FetchedXdWrite
            | FetchedRegenerate
    )
}

/// The blocks that the bytes of the command name, read here by hand.
fn named_blocks(image: &[u8], step: &StepCall, good: Good) -> Vec<Range<usize>> {
    use Good::*;
    let target = drive(image, step.target);
    let at = |place: Range<usize>| number(&step.cdb[place]);
    match good {
        Write | XorWrite | XorHanded => vec![blocks(image, target, at(2..6), at(7..9))],
        XorRetained if step.cdb[0] == 0x50 => {
            vec![blocks(image, target, at(2..6), at(7..9))]
        }
        XorRetained | MirrorRetained => vec![blocks(image, target, at(2..6), at(6..8))],
        XorSent | MirrorSent => {
            let secondary = drive(image, at(8..11) as u32);
            vec![
                blocks(image, target, at(2..6), at(6..8)),
                blocks(image, secondary, at(11..15), at(6..8)),
            ]
        }
        Rebuilt | RebuiltWithData | RebuiltToTheEnd => {
            let block = number(&step.data[4..8]);
            let length = match at(2..6) {
                0xFFFF_FFFF => field(image, 1) - block,
                length => length,
            };
            vec![blocks(image, target, block, length)]
        }
        _ => Vec::new(),
    }
}

/// The big-endian number in the bytes.
pub fn number(bytes: &[u8]) -> usize {
    let digits = bytes.iter();
    digits.fold(0, |number, byte| 256 * number + usize::from(*byte))
}

/// A field of the header.
pub fn field(image: &[u8], place: usize) -> usize {
    number(&image[4 * place..4 * place + 4])
}

fn drive(image: &[u8], address: u32) -> usize {
    let entry = |drive: usize| &image[33 + 4 * drive..36 + 4 * drive];
    let mut drives = 0..field(image, 0);
    drives
        .find(|drive| number(entry(*drive)) == address as usize)
        .expect("a drive")
}

fn blocks(image: &[u8], drive: usize, block: usize, length: usize) -> Range<usize> {
    let (per_drive, size) = (field(image, 1), field(image, 2));
    let start = field(image, 7) + (drive * per_drive + block) * size;
    start..start + length * size
}
