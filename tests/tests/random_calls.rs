//! Random calls: both implementations leave the same bytes, and every refusal and every kind of
//! GOOD comes up, for each command that it can come to.

#[path = "../../second/tests/seen/mod.rs"]
mod seen;

use second::{next_call, random_case, random_shelf};
use second::{Call, Case, Outcome, Random, Reached, Refusal, SENSE_SIZE};
use seen::Seen;
use shelf_tests::agree;

/// Counts a call that must agree, and gives what it came to.
fn made(seen: &mut Seen, image: &mut [u8], call: &Call) -> (Reached, Outcome) {
    let reached = seen.count(image, call).expect("a call with checks");
    (reached, agree(image, call))
}

/// So many random calls, each with its own image; the row program is left out.
fn single_calls(seed: u64, count: usize) -> impl Iterator<Item = Case> {
    let mut random = Random::new(seed);
    std::iter::repeat_with(move || random_case(&mut random))
        .filter(|case| case.call != Call::Rows)
        .take(count)
}

#[test]
fn single_calls_agree_and_reach_everything() {
    let mut seen = Seen::default();
    for seed in 101..=104 {
        for Case { mut image, call } in single_calls(seed, 20_000) {
            made(&mut seen, &mut image, &call);
        }
    }
    assert_eq!(seen.total(), 80_000);
    seen.expect_all_but(&[]);
}

#[test]
fn runs_on_one_image_agree_and_reach_everything_on_a_shelf() {
    let mut seen = Seen::default();
    let mut random = Random::new(105);
    for _ in 0..200 {
        let mut image = random_shelf(&mut random);
        for _ in 0..300 {
            let call = next_call(&mut random, &image);
            made(&mut seen, &mut image, &call);
        }
    }
    assert_eq!(seen.total(), 60_000);
    seen.expect_all_but(&[Reached::Refused(Refusal::NotAShelf)]);
}

#[test]
fn runs_on_images_that_get_damaged_agree() {
    let mut seen = Seen::default();
    let mut random = Random::new(106);
    for _ in 0..200 {
        let mut image = random_shelf(&mut random);
        for _ in 0..100 {
            let call = next_call(&mut random, &image);
            let mut damaged = image.clone();
            let place = random.below(media_at(&image)) as usize;
            damaged[place] ^= 1 << random.below(8);
            made(&mut seen, &mut damaged, &call);
            made(&mut seen, &mut image, &call);
        }
    }
    let not_a_shelf = seen.times(Reached::Refused(Refusal::NotAShelf));
    assert!(not_a_shelf > 1_000 && seen.total() - not_a_shelf > 21_000);
}

#[test]
fn calls_at_the_same_time_agree() {
    let run = |seed| {
        let mut seen = Seen::default();
        for Case { mut image, call } in single_calls(seed, 4_000) {
            made(&mut seen, &mut image, &call);
        }
        seen.total()
    };
    std::thread::scope(|scope| {
        let threads: Vec<_> = (111..=114)
            .map(|seed| scope.spawn(move || run(seed)))
            .collect();
        for thread in threads {
            assert_eq!(thread.join().expect("no thread panics"), 4_000);
        }
    });
}

/// The last field of the header of a shelf.
fn media_at(image: &[u8]) -> u64 {
    let field = image[28..32].try_into().expect("four bytes");
    u64::from(u32::from_be_bytes(field))
}

#[test]
fn the_sense_room_tells_the_length_of_the_sense() {
    let mut seen = Seen::default();
    for Case { mut image, call } in single_calls(107, 20_000) {
        let (reached, outcome) = made(&mut seen, &mut image, &call);
        let Outcome::Step(outcome) = outcome else {
            continue;
        };
        if reached == Reached::Refused(Refusal::SenseRoomShort) {
            continue;
        }
        let length = match outcome.sense[0] {
            0 => 0,
            _ => usize::from(outcome.sense[7]) + 8,
        };
        let (sense, rest) = outcome.sense[..SENSE_SIZE].split_at(length);
        match reached {
            Reached::Refused(refusal) => assert_eq!(sense, refusal.sense(), "{refusal:?}"),
            Reached::Good(good) => assert_eq!(sense, [], "{good:?}"),
        }
        assert!(rest.iter().all(|byte| *byte == 0), "{reached:?}");
    }
}
