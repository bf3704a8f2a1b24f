//! Random calls: every refusal and every kind of GOOD is reached, and every call
//! keeps the rules that hold for all of them.

mod rules;
mod seen;

use rules::{check, field, number};
use second::{next_call, random_case, random_shelf};
use second::{Call, Case, Good, Random, Reached, Refusal, Shelf, StepCall};
use seen::Seen;

#[test]
fn single_calls_reach_everything_and_keep_the_rules() {
    let mut seen = Seen::default();
    for seed in 1..=4 {
        let mut random = Random::new(seed);
        for _ in 0..15_000 {
            let Case { mut image, call } = random_case(&mut random);
            seen.count(&image, &call);
            check(&mut image, &call);
        }
    }
    seen.expect_all_but(&[]);
}

#[test]
fn runs_on_one_image_reach_everything_on_a_shelf_and_keep_the_rules() {
    let mut seen = Seen::default();
    let mut random = Random::new(5);
    for _ in 0..200 {
        let mut image = random_shelf(&mut random);
        assert!(Shelf::read(&image).is_some());
        for _ in 0..300 {
            let call = next_call(&mut random, &image);
            seen.count(&image, &call);
            check(&mut image, &call);
        }
    }
    assert_eq!(seen.total(), 60_000);
    seen.expect_all_but(&[Reached::Refused(Refusal::NotAShelf)]);
}

/// Random steps of one code, each with the image it is made on.
fn steps_of(code: u8, seed: u64, count: usize) -> impl Iterator<Item = (Vec<u8>, StepCall)> {
    let mut random = Random::new(seed);
    std::iter::repeat_with(move || random_case(&mut random))
        .filter_map(|case| match case.call {
            Call::Step(step) => Some((case.image, step)),
            _ => None,
        })
        .filter(move |(_, step)| step.cdb.first() == Some(&code))
        .take(count)
}

/// The step and one with another CDB give the same back and leave the same
/// image; gives the number.
fn same(image: &[u8], one: &StepCall, cdb: Vec<u8>) -> u32 {
    let mut other = one.clone();
    other.cdb = cdb;
    let (mut left, mut right) = (image.to_vec(), image.to_vec());
    let outcome = one.run(&mut left);
    assert_eq!(outcome, other.run(&mut right), "{one:?}");
    assert!(left == right, "{one:?}");
    outcome.number
}

#[test]
fn xpwrite_and_xdread_are_the_same_in_both_sets() {
    for (code, other) in [(0xC1, 0x51), (0x51, 0xC1), (0xC2, 0x52), (0x52, 0xC2)] {
        let mut good = 0;
        for (image, step) in steps_of(code, 13, 1_500) {
            let mut cdb = step.cdb.clone();
            cdb[0] = other;
            good += u32::from(same(&image, &step, cdb) == 0);
        }
        assert!(good > 150, "{good} of {code:02X}");
    }
}

/// "50h always retains": it is an XDWRITE with Sec Ctl 11, and DISABLE WRITE is
/// its NDisc. A bit that must be zero is sent as one.
#[test]
fn xdwrite_10_is_xdwrite_with_sec_ctl_11() {
    let mut good = 0;
    for (image, step) in steps_of(0x50, 14, 3_000).filter(|(_, step)| step.cdb.len() == 10) {
        let old = &step.cdb;
        let spoilt = old[1] & 0b1110_0011 != 0 || old[6] != 0;
        let mut cdb = vec![0xC0, (old[1] & 4) << 3 | 6 | u8::from(spoilt)];
        cdb.extend_from_slice(&old[2..6]);
        cdb.extend_from_slice(&old[7..9]);
        cdb.extend_from_slice(&[0; 7]);
        cdb.push(old[9]);
        good += u32::from(same(&image, &step, cdb) == 0);
    }
    assert!(good > 300, "{good}");
}

/// What 53h hands over is what 50h would retain, and it leaves the media alike.
#[test]
fn xdwriteread_10_hands_over_what_xdwrite_10_retains() {
    let mut seen = [0; 2];
    for (image, step) in steps_of(0x53, 15, 3_000) {
        let call = Call::Step(step.clone());
        let disabled = match call.reached(&image) {
            Some(Reached::Good(Good::XorHanded)) => 0,
            Some(Reached::Good(Good::XorHandedOnly)) => 1,
            _ => continue,
        };
        let mut handed = image.clone();
        let outcome = step.run(&mut handed);
        let (mut retained, mut retain) = (image.clone(), step.clone());
        retain.cdb[0] = 0x50;
        if retain.run(&mut retained).number == 8 {
            continue;
        }
        let mut read = step.clone();
        (read.cdb[0], read.cdb[1]) = (0x52, 0);
        read.data.clear();
        assert_eq!(read.run(&mut retained), outcome);
        let media = field(&image, 7);
        assert_eq!(handed[media..], retained[media..]);
        assert_eq!(handed[..media], image[..media]);
        seen[disabled] += 1;
    }
    assert!(seen[0] > 300 && seen[1] > 300, "{seen:?}");
}

#[test]
fn a_good_share_of_the_calls_in_a_run_is_good() {
    let mut random = Random::new(6);
    let (mut good, mut total) = (0, 0);
    for _ in 0..100 {
        let mut image = random_shelf(&mut random);
        for _ in 0..100 {
            let call = next_call(&mut random, &image);
            good += u32::from(matches!(call.reached(&image), Some(Reached::Good(_))));
            total += 1;
            call.run(&mut image);
        }
    }
    assert!(3 * good > total, "{good} of {total}");
}

#[test]
fn one_seed_gives_one_run_of_cases() {
    let cases = |seed| -> Vec<Case> {
        let mut random = Random::new(seed);
        (0..50).map(|_| random_case(&mut random)).collect()
    };
    assert_eq!(cases(7), cases(7));
    assert_ne!(cases(7), cases(8));
}

#[test]
fn most_images_are_small_and_some_are_not() {
    let mut random = Random::new(9);
    let sizes: Vec<usize> = (0..20_000)
        .map(|_| random_case(&mut random).image.len())
        .collect();
    let small = sizes.iter().filter(|size| **size <= 2_048).count();
    assert!(small > 18_000, "{small} of 20000");
    for size in [0, 49_152, 49_153] {
        assert!(sizes.contains(&size), "none of {size} bytes");
    }
    assert!(sizes.iter().any(|size| *size > 8_192 && *size < 49_152));
}

/// What the shelves of a generator have to show between them.
#[derive(Default)]
struct Shapes {
    hole: bool,
    rank_order: bool,
    failed_with_result: bool,
    slot_above_drive: bool,
    no_slot: bool,
    all_used: bool,
    many_drives: bool,
    long_block: bool,
}

impl Shapes {
    fn look(&mut self, image: &[u8]) {
        let size = 16 + field(image, 4) * field(image, 2);
        let at = |slot: usize| field(image, 6) + slot * size;
        let records: Vec<&[u8]> = (0..field(image, 3))
            .map(|slot| &image[at(slot)..at(slot) + 16])
            .collect();
        let ranks: Vec<usize> = records.iter().map(|record| number(&record[..4])).collect();
        self.hole |= ranks.windows(2).any(|pair| pair[0] == 0 && pair[1] > 0);
        self.rank_order |= ranks
            .windows(2)
            .any(|pair| pair[0] > pair[1] && pair[1] > 0);
        self.failed_with_result |= records
            .iter()
            .any(|record| record[4] > 0 && image[32 + 4 * usize::from(record[5])] == 1);
        self.slot_above_drive |= field(image, 4) > field(image, 1);
        self.no_slot |= ranks.is_empty();
        self.all_used |= !ranks.is_empty() && !ranks.contains(&0);
        self.many_drives |= field(image, 0) > 16;
        self.long_block |= field(image, 2) > 512;
    }
}

#[test]
fn the_shelves_come_in_all_shapes() {
    let mut random = Random::new(10);
    let mut shapes = Shapes::default();
    for _ in 0..2_000 {
        shapes.look(&random_shelf(&mut random));
    }
    assert!(shapes.hole && shapes.rank_order && shapes.failed_with_result);
    assert!(shapes.slot_above_drive && shapes.no_slot && shapes.all_used);
    assert!(shapes.many_drives && shapes.long_block);
}
