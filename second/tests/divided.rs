//! Commands with a list, divided or put in another order, on random shelves: two strings of drives
//! do what one list does, the order of a list does not matter, and a REBUILD may be cut in ranges,
//! over two strings too.

mod common;
mod lists;

use lists::{from_to, good, one_of, ten_bytes};
use lists::{Listed, RandomShelf, REBUILD, REGENERATE, TO_THE_END};
use second::{Random, StepCall};
use std::ops::Range;

/// A REGENERATE on one string, and the REBUILD on another that takes its result as Int Data.
#[derive(Clone, Debug)]
struct Strings {
    first: Listed,
    second: Listed,
}

impl Strings {
    /// Two lists for so many blocks at most, whose drives are present; the second may name the
    /// first's target, and has no Int Data yet.
    fn new(random: &mut Random, shelf: &RandomShelf, most: u32) -> Strings {
        let mut drives = shelf.present(random);
        let rebuilt = drives.pop().expect("a drive to rebuild");
        let target = drives.pop().expect("a drive to regenerate");
        let (block, length) = shelf.range(random, most);
        let data = shelf.bytes(random, length);
        let first = Listed {
            code: REGENERATE,
            target,
            block,
            length,
            sources: shelf.sources(random, &drives, length),
            data: random.one_in(2).then_some(data),
        };
        drives.push(target);
        let second = Listed {
            code: REBUILD,
            target: rebuilt,
            block: shelf.block(random, length),
            length,
            sources: shelf.sources(random, &drives, length),
            data: None,
        };
        Strings { first, second }
    }

    /// Both lists on a part of their blocks, in blocks of so many bytes.
    fn part(&self, blocks: Range<u32>, size: u32) -> Strings {
        Strings {
            first: self.first.part(blocks.clone(), size),
            second: self.second.part(blocks, size),
        }
    }

    /// The REBUILD that stands for both: the first's own blocks and both lists, in any order.
    fn as_one(&self, random: &mut Random) -> Listed {
        let mut sources = vec![(self.first.target, self.first.block)];
        sources.extend(&self.first.sources);
        sources.extend(&self.second.sources);
        random.shuffle(&mut sources);
        Listed {
            sources,
            data: self.first.data.clone(),
            ..self.second.clone()
        }
    }

    /// The XDREAD of either set that the first string's result is read by.
    fn xdread(&self, random: &mut Random, shelf: &RandomShelf) -> StepCall {
        let Listed { block, length, .. } = self.first;
        let code = one_of(random, &[0xC2, 0x52]);
        shelf.reading(code, self.first.target, block, length)
    }

    /// Makes calls that change no medium and leave the first string's result retained.
    fn other_calls(&self, random: &mut Random, shelf: &mut RandomShelf) {
        let media = shelf.media(&shelf.rig.image).to_vec();
        let mut failed = Vec::new();
        for _ in 0..from_to(random, 1, 5) {
            let address = one_of(random, &shelf.addresses);
            match random.below(5) {
                0 => {
                    let (block, length) = shelf.range(random, shelf.blocks);
                    let read = shelf.reading(0x28, address, block, length);
                    read.run(&mut shelf.rig.image);
                }
                1 if address != self.first.target => shelf.rig.reset(address),
                2 if shelf.present(random).len() > 2 => {
                    shelf.rig.mark(address, 1);
                    failed.push(address);
                }
                3 => self.regenerate_elsewhere(random, shelf),
                _ => self.refused(random, shelf),
            }
        }
        for address in failed {
            shelf.rig.mark(address, 0);
        }
        assert!(shelf.media(&shelf.rig.image) == media, "{self:02X?}");
    }

    /// Sends a REGENERATE to another drive or block than the first string's, which may be BUSY.
    fn regenerate_elsewhere(&self, random: &mut Random, shelf: &mut RandomShelf) {
        let int_data = random.one_in(2);
        let listed = shelf.listed(random, REGENERATE, int_data);
        if (listed.target, listed.block) != (self.first.target, self.first.block) {
            listed.call().run(&mut shelf.rig.image);
        }
    }

    /// Sends a command that is refused on every shelf.
    fn refused(&self, random: &mut Random, shelf: &mut RandomShelf) {
        let address = one_of(random, &shelf.addresses);
        let Listed { target, block, .. } = self.first;
        let call = match random.below(5) {
            0 => {
                let mut write = ten_bytes(0x2A, address, shelf.blocks, 1);
                write.data = shelf.bytes(random, 1);
                write
            }
            1 => ten_bytes(0xC2, target, block, shelf.most + 1),
            2 => {
                let mut short = self.xdread(random, shelf);
                short.room.pop();
                short
            }
            3 => {
                let mut listed = self.second.clone();
                listed.sources.push((listed.target, 0));
                listed.call()
            }
            _ => ten_bytes(0xC5, address, block, 1),
        };
        let before = shelf.rig.image.clone();
        let number = call.run(&mut shelf.rig.image).number;
        assert!(number != 0 && shelf.rig.image == before, "{call:02X?}");
    }
}

/// How often the two strings were compared, and in which cases.
#[derive(Default, Debug)]
struct Compared {
    with_data: u32,
    without_data: u32,
    from_the_start: u32,
    whole_images: u32,
}

impl Compared {
    /// Sends the two strings to a random shelf, and then the one list to copies of it.
    fn compare(&mut self, random: &mut Random) {
        let mut shelf = RandomShelf::new(random);
        let strings = Strings::new(random, &shelf, shelf.most);
        let quiet = random.one_in(2);
        prepare(random, &mut shelf, &strings, quiet);
        let start = shelf.rig.image.clone();
        let result = first_string(random, &mut shelf, &strings, quiet);
        let before = shelf.rig.image.clone();
        second_string(&mut shelf, &strings, result.clone());
        let one = strings.as_one(random);
        self.same(&shelf, &one, &start, &before);
        if quiet {
            self.but_for_a_slot(&shelf, &one, &start, &result);
        }
    }

    /// With nothing between, all that differs from what the one list leaves of the shelf as it was
    /// is the result, in the data of the slot that it had.
    fn but_for_a_slot(&mut self, shelf: &RandomShelf, one: &Listed, start: &[u8], result: &[u8]) {
        let (_, mut due) = one.on_a_copy(start);
        let data = shelf.empty_data(start);
        due[data..data + result.len()].copy_from_slice(result);
        assert!(shelf.rig.image == due, "{one:02X?}");
        self.whole_images += 1;
    }

    /// The one list leaves the shelf as it is now, and from the start, where it is GOOD, the media.
    fn same(&mut self, shelf: &RandomShelf, one: &Listed, start: &[u8], before: &[u8]) {
        let after = &shelf.rig.image;
        let (outcome, copy) = one.on_a_copy(before);
        assert_eq!(outcome.number, 0, "{one:02X?}");
        assert!(copy == *after && copy != before, "{one:02X?}");
        let (outcome, copy) = one.on_a_copy(start);
        if outcome.number == 0 {
            assert!(shelf.media(&copy) == shelf.media(after), "{one:02X?}");
            self.from_the_start += 1;
        }
        match one.data {
            Some(_) => self.with_data += 1,
            None => self.without_data += 1,
        }
    }
}

/// Now and then retains an older result at the REGENERATE's block, and has the drive to rebuild
/// fail if calls come between that mark it present again.
fn prepare(random: &mut Random, shelf: &mut RandomShelf, strings: &Strings, quiet: bool) {
    if shelf.retained() + 1 < shelf.slots && random.one_in(2) {
        shelf.retain(random, strings.first.target, strings.first.block);
    }
    if !quiet && random.one_in(4) {
        shelf.rig.mark(strings.second.target, 1);
    }
}

/// Sends the REGENERATE and the XDREAD, quietly or with other calls, and gives the result's bytes.
fn first_string(
    random: &mut Random,
    shelf: &mut RandomShelf,
    strings: &Strings,
    quiet: bool,
) -> Vec<u8> {
    good(&strings.first.call(), &mut shelf.rig.image);
    if !quiet {
        strings.other_calls(random, shelf);
    }
    let xdread = strings.xdread(random, shelf);
    let outcome = good(&xdread, &mut shelf.rig.image);
    assert_eq!(outcome.count, Some(outcome.room.len() as u32));
    if !quiet {
        strings.other_calls(random, shelf);
        shelf.rig.mark(strings.second.target, 0);
    }
    outcome.room
}

/// Sends the REBUILD, with the result as its Int Data.
fn second_string(shelf: &mut RandomShelf, strings: &Strings, result: Vec<u8>) {
    let second = Listed {
        data: Some(result),
        ..strings.second.clone()
    };
    good(&second.call(), &mut shelf.rig.image);
}

#[test]
fn two_strings_leave_what_one_list_leaves() {
    let mut random = Random::new(21);
    let mut seen = Compared::default();
    for _ in 0..12_000 {
        seen.compare(&mut random);
    }
    assert!(seen.with_data >= 5_000, "{seen:?}");
    assert!(seen.without_data >= 5_000, "{seen:?}");
    assert!(seen.from_the_start >= 9_000, "{seen:?}");
    assert!(seen.whole_images >= 5_000, "{seen:?}");
}

/// Lets a REBUILD that reaches the last block say so by its length, every second time.
fn say_to_the_end(random: &mut Random, shelf: &RandomShelf, listed: &mut Listed) {
    let reaches = listed.block + listed.length == shelf.blocks;
    let allowed = listed.code == REBUILD && listed.data.is_none();
    if reaches && allowed && random.one_in(2) {
        listed.length = TO_THE_END;
    }
}

/// Has one thing wrong with the list, its sources or the shelf, or asks for no blocks.
fn spoil(random: &mut Random, shelf: &mut RandomShelf, listed: &mut Listed) {
    let place = random.below(listed.sources.len() as u64) as usize;
    let (address, block) = &mut listed.sources[place];
    match random.below(6) {
        0 => {
            *address = one_of(random, &shelf.addresses);
            shelf.rig.mark(*address, 1);
        }
        1 => *address += one_of(random, &[1, 1 << 24]),
        2 => *block = from_to(random, shelf.blocks - listed.length + 1, shelf.blocks),
        3 => *address = listed.target,
        4 => listed.block = shelf.blocks,
        _ => {
            listed.length = 0;
            listed.data = listed.data.take().map(|_| vec![]);
        }
    }
}

/// How often a list was compared with the same list in another order, and with which outcome.
#[derive(Default, Debug)]
struct Reordered {
    good: u32,
    zero_length: u32,
    refused: u32,
}

impl Reordered {
    /// Sends a list and the same in another order to copies of one shelf.
    fn compare(&mut self, random: &mut Random, code: u8, int_data: bool) {
        let mut shelf = RandomShelf::new(random);
        let mut listed = shelf.listed(random, code, int_data);
        for _ in 0..one_of(random, &[0, 0, 0, 1, 2]) {
            spoil(random, &mut shelf, &mut listed);
        }
        say_to_the_end(random, &shelf, &mut listed);
        let mut other = listed.clone();
        random.shuffle(&mut other.sources);
        if other != listed {
            self.same(&shelf.rig.image, &listed, &other);
        }
    }

    /// Both commands are GOOD or neither, and if they are, they give and leave the same.
    fn same(&mut self, image: &[u8], listed: &Listed, other: &Listed) {
        let case = || format!("{listed:02X?} {other:02X?}");
        let (outcome, left) = listed.on_a_copy(image);
        let (other_outcome, right) = other.on_a_copy(image);
        let good = outcome.number == 0;
        assert_eq!(good, other_outcome.number == 0, "{}", case());
        assert!(left == right, "{}", case());
        assert_eq!(left != image, good && listed.length > 0, "{}", case());
        if good {
            assert_eq!(outcome, other_outcome, "{}", case());
        }
        match (good, listed.length) {
            (true, 0) => self.zero_length += 1,
            (true, _) => self.good += 1,
            (false, _) => self.refused += 1,
        }
    }
}

#[test]
fn a_list_does_the_same_in_any_order() {
    let mut random = Random::new(22);
    for (code, int_data) in [
        (REBUILD, false),
        (REBUILD, true),
        (REGENERATE, false),
        (REGENERATE, true),
    ] {
        let mut seen = Reordered::default();
        for _ in 0..8_000 {
            seen.compare(&mut random, code, int_data);
        }
        let case = format!("{code:X}h, Int Data {int_data}: {seen:?}");
        assert!(seen.good >= 3_500 && seen.zero_length >= 250, "{case}");
        assert!(seen.refused >= 1_500, "{case}");
    }
}

/// How often a REBUILD was compared with its ranges, and how it was sent.
#[derive(Default, Debug)]
struct Cut {
    good: u32,
    refused: u32,
    whole_to_the_end: u32,
    range_to_the_end: u32,
}

impl Cut {
    /// Cuts a REBUILD for a random shelf, where it can be cut.
    fn compare(&mut self, random: &mut Random, int_data: bool) {
        let mut shelf = RandomShelf::new(random);
        let mut whole = shelf.listed(random, REBUILD, int_data);
        if random.one_in(4) {
            reach_too_far(random, &mut shelf, &mut whole);
        }
        let mut ranges = ranges(random, &shelf, &whole);
        random.shuffle(&mut ranges);
        say_to_the_end(random, &shelf, &mut whole);
        if ranges.len() > 1 {
            self.same(shelf.rig.image, &whole, &ranges);
        }
    }

    /// The whole is GOOD just where all ranges are, and they leave what it leaves.
    fn same(&mut self, mut image: Vec<u8>, whole: &Listed, ranges: &[Listed]) {
        let (outcome, after) = whole.on_a_copy(&image);
        let changed = after != image;
        let sent = ranges.iter().map(|range| range.call());
        let numbers: Vec<u32> = sent.map(|call| call.run(&mut image).number).collect();
        let good = numbers.iter().all(|number| *number == 0);
        assert_eq!(good, outcome.number == 0, "{whole:02X?} {ranges:02X?}");
        assert_eq!(good, changed, "{whole:02X?} {ranges:02X?}");
        if !good {
            self.refused += 1;
            return;
        }
        assert!(image == after, "{whole:02X?} {ranges:02X?}");
        let to_the_end = |listed: &Listed| listed.length == TO_THE_END;
        self.good += 1;
        self.whole_to_the_end += u32::from(to_the_end(whole));
        self.range_to_the_end += u32::from(ranges.iter().any(to_the_end));
    }
}

/// Has one source fail, or begin so late that not all of the blocks fit.
fn reach_too_far(random: &mut Random, shelf: &mut RandomShelf, whole: &mut Listed) {
    let (address, block) = &mut whole.sources[0];
    if random.one_in(2) {
        shelf.rig.mark(*address, 1);
    } else {
        *block = from_to(random, 0, shelf.blocks);
    }
}

/// So many blocks cut at random places, into ranges of so many at most.
fn cuts(random: &mut Random, length: u32, most: u32) -> Vec<Range<u32>> {
    let mut cuts = Vec::new();
    let mut start = 0;
    for end in 1..=length {
        if end == length || end - start == most || random.one_in(2) {
            cuts.push(start..end);
            start = end;
        }
    }
    cuts
}

/// The command cut at random places, the last range at times to the end.
fn ranges(random: &mut Random, shelf: &RandomShelf, whole: &Listed) -> Vec<Listed> {
    let cuts = cuts(random, whole.length, whole.length).into_iter();
    let mut ranges: Vec<Listed> = cuts.map(|cut| whole.part(cut, shelf.size)).collect();
    if let Some(last) = ranges.last_mut() {
        say_to_the_end(random, shelf, last);
    }
    ranges
}

#[test]
fn the_ranges_of_a_rebuild_leave_what_the_whole_leaves() {
    let mut random = Random::new(23);
    for int_data in [false, true] {
        let mut seen = Cut::default();
        for _ in 0..10_000 {
            seen.compare(&mut random, int_data);
        }
        let case = format!("Int Data {int_data}: {seen:?}");
        assert!(seen.good >= 4_000 && seen.refused >= 1_000, "{case}");
        let ends = [seen.whole_to_the_end, seen.range_to_the_end];
        let often = ends.iter().all(|times| *times >= 1_500);
        assert!(int_data || often, "{case}");
    }
}

/// Rebuilds a drive over two strings in ranges that a slot holds, and compares the media with those
/// that the one list leaves of the shelf as it was; says whether no slot holds all blocks.
fn drive_by_ranges(random: &mut Random) -> bool {
    let mut shelf = RandomShelf::new(random);
    let strings = Strings::new(random, &shelf, shelf.blocks);
    let (outcome, whole) = strings.as_one(random).on_a_copy(&shelf.rig.image);
    let length = strings.first.length;
    let mut cuts = cuts(random, length, shelf.most);
    random.shuffle(&mut cuts);
    for cut in cuts {
        let part = strings.part(cut, shelf.size);
        let quiet = random.one_in(2);
        shelf.free_a_slot();
        let result = first_string(random, &mut shelf, &part, quiet);
        second_string(&mut shelf, &part, result);
    }
    let left = shelf.media(&shelf.rig.image);
    let same = outcome.number == 0 && shelf.media(&whole) == left;
    assert!(same, "{strings:02X?}");
    length > shelf.most
}

#[test]
fn a_drive_is_rebuilt_over_two_strings_in_ranges() {
    let mut random = Random::new(24);
    let larger = (0..8_000).filter(|_| drive_by_ranges(&mut random)).count();
    assert!(larger >= 2_000, "{larger}");
}
