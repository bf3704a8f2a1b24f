//! A shelf to send calls to, and the answers 01 gives, byte by byte.
#![allow(dead_code)]

use second::{listing, mark, reset, Call, Good, Reached, Refusal, StepCall, StepOutcome};

/// 05h/20h/00h.
pub const CODE: &str = "70 00 05 00000000 0A 00000000 20 00 00000000";
/// 02h/04h/00h.
pub const GONE: &str = "70 00 02 00000000 0A 00000000 04 00 00000000";
/// 05h/24h/00h.
pub const FIELD: &str = "70 00 05 00000000 0A 00000000 24 00 00000000";
/// 05h/1Ah/00h.
pub const LIST_LENGTH: &str = "70 00 05 00000000 0A 00000000 1A 00 00000000";
/// 05h/26h/00h.
pub const LIST: &str = "70 00 05 00000000 0A 00000000 26 00 00000000";
/// 05h/21h/00h.
pub const RANGE: &str = "70 00 05 00000000 0A 00000000 21 00 00000000";
/// Another drive's address is not in the table; 36 bytes.
pub const NESTED_UNKNOWN: &str = "70 00 0B 00 00 00 00 1C 12 000000000000000000
     70 00 0B 00 00 00 00 0A 00 00 00 00 08 00 00 00 00 00";
/// Another drive has failed; 37 bytes, as printed in C9.
pub const NESTED_GONE: &str =
    "70 00 0B 00 00 00 00 1D 00 12 00 00 00 00 00 00 00 00 02 70 00 02 00 00 00 00 0A 00 00 00
     00 04 00 00 00 00 00";
/// Another drive's range is beyond B; 37 bytes.
pub const NESTED_RANGE: &str =
    "70 00 0B 00 00 00 00 1D 00 12 00 00 00 00 00 00 00 00 02 70 00 05 00 00 00 00 0A 00 00 00
     00 21 00 00 00 00 00";

/// C1's CDB: XDWRITE of block 0 with secondary 3 at block 0.
pub const C1: &str = "C0 00 00000000 0001 000003 00000000 00";
/// C2's CDB: the same with Sec Ctl 11.
pub const C2: &str = "C0 06 00000000 0001 000003 00000000 00";

/// The bench shelf.
pub const BENCH: &str = "00000003 00000002 00000004 00000001 00000002
     00000020 0000002C 00000044
     00 000001 00 000002 00 000003
     00000000 00 00 0000 00000000 00000000 0000000000000000
     0A0B0C0D 00000000 01020304 00000000 0B090F09 00000000";

/// The bytes of a text of hexadecimal digits; white space is left out.
pub fn hex(text: &str) -> Vec<u8> {
    let digits: Vec<u32> = text
        .chars()
        .filter(|letter| !letter.is_whitespace())
        .map(|letter| letter.to_digit(16).expect("a hexadecimal digit"))
        .collect();
    assert!(digits.len().is_multiple_of(2), "half a byte in {text}");
    digits
        .chunks(2)
        .map(|pair| (16 * pair[0] + pair[1]) as u8)
        .collect()
}

/// The sense room of 40 bytes AA after a call with this sense.
pub fn sense_room(sense: &str) -> Vec<u8> {
    let mut room = hex(sense);
    room.resize(37, 0);
    room.extend([0xAA; 3]);
    room
}

/// What a refusal answers.
#[derive(Clone, Copy)]
pub enum Answer {
    Check(&'static str),
    Call(u32),
    Busy,
}

use Answer::{Busy, Check};

/// An image that calls are sent to.
#[derive(Clone, PartialEq, Eq, Debug)]
pub struct Rig {
    pub image: Vec<u8>,
}

impl Rig {
    /// The bench shelf.
    pub fn bench() -> Rig {
        Rig { image: hex(BENCH) }
    }

    /// Present drives with addresses 1 to D, empty slots and media of zeros.
    pub fn shelf(drives: u32, blocks: u32, length: u32, slots: u32, most: u32) -> Rig {
        let slots_at = 32 + 4 * drives;
        let media_at = slots_at + slots * (16 + most * length);
        let mut image = Vec::new();
        for field in [drives, blocks, length, slots, most, 32, slots_at, media_at] {
            image.extend(field.to_be_bytes());
        }
        for address in 1..=drives {
            image.extend(address.to_be_bytes());
        }
        image.resize((media_at + drives * blocks * length) as usize, 0);
        Rig { image }
    }

    /// The bench shelf with two slots.
    pub fn bench_of_two_slots() -> Rig {
        let mut rig = Rig::shelf(3, 2, 4, 2, 2);
        rig.patch(92, "0A0B0C0D 00000000 01020304 00000000 0B090F09");
        rig
    }

    /// Writes bytes into the image.
    pub fn patch(&mut self, at: usize, bytes: &str) {
        let bytes = hex(bytes);
        self.image[at..at + bytes.len()].copy_from_slice(&bytes);
    }

    /// The image with bytes written into it.
    pub fn with(&self, at: usize, bytes: &str) -> Rig {
        let mut rig = self.clone();
        rig.patch(at, bytes);
        rig
    }

    /// Sends a command with a receive room of so many bytes EE and a sense room
    /// of 40 bytes AA.
    pub fn send(&mut self, target: u32, cdb: &str, data: &str, room: usize) -> StepOutcome {
        step_call(target, cdb, data, room).run(&mut self.image)
    }

    /// Sends a command that must be GOOD and hand back no bytes.
    pub fn good(&mut self, target: u32, cdb: &str, data: &str, good: Good) {
        let count = self.fetched(target, cdb, data, good).len();
        assert_eq!(count, 0, "{cdb} handed bytes back");
    }

    /// Sends a command that must be GOOD and gives the bytes it hands back; the
    /// rest of a room of 64 bytes stays.
    pub fn fetched(&mut self, target: u32, cdb: &str, data: &str, good: Good) -> Vec<u8> {
        let call = Call::Step(step_call(target, cdb, data, 64));
        assert_eq!(
            call.reached(&self.image),
            Some(Reached::Good(good)),
            "{cdb}"
        );
        let outcome = self.send(target, cdb, data, 64);
        assert_eq!(outcome.number, 0, "{cdb} was not GOOD");
        assert_eq!(outcome.sense, sense_room(""), "{cdb} left sense");
        let count = outcome.count.expect("a count") as usize;
        assert!(outcome.room[count..].iter().all(|byte| *byte == 0xEE));
        outcome.room[..count].to_vec()
    }

    /// Sends a command that must be refused; image and room of 8 bytes stay.
    pub fn refused(&mut self, target: u32, cdb: &str, data: &str, answer: Answer, why: Refusal) {
        self.refused_with_room(target, cdb, data, 8, (answer, why));
    }

    /// The same with a receive room of so many bytes.
    pub fn refused_with_room(
        &mut self,
        target: u32,
        cdb: &str,
        data: &str,
        room: usize,
        (answer, why): (Answer, Refusal),
    ) {
        let before = self.image.clone();
        let call = Call::Step(step_call(target, cdb, data, room));
        assert_eq!(call.reached(&before), Some(Reached::Refused(why)), "{cdb}");
        let outcome = self.send(target, cdb, data, room);
        let (number, sense) = match answer {
            Check(sense) => (2, sense),
            Answer::Call(number) => (256 + number, ""),
            Busy => (8, ""),
        };
        assert_eq!(outcome.number, number, "{cdb} {data}");
        assert_eq!(outcome.sense, sense_room(sense), "{cdb} {data}");
        assert_eq!(outcome.count, Some(0), "{cdb} {data}");
        assert_eq!(outcome.room, vec![0xEE; room], "{cdb} wrote the room");
        assert_eq!(self.image, before, "{cdb} wrote the image");
    }

    /// A hard reset that must be GOOD.
    pub fn reset(&mut self, target: u32) {
        assert_eq!(reset(&mut self.image, target), 0);
    }

    /// A marking that must be GOOD.
    pub fn mark(&mut self, target: u32, state: u32) {
        assert_eq!(mark(&mut self.image, target, state), 0);
    }

    /// The row listing of the image.
    pub fn listing(&self) -> String {
        listing(&self.image)
    }
}

/// A step with a room of bytes EE and a sense room of 40 bytes AA.
pub fn step_call(target: u32, cdb: &str, data: &str, room: usize) -> StepCall {
    StepCall {
        target,
        cdb: hex(cdb),
        data: hex(data),
        room: vec![0xEE; room],
        sense: vec![0xAA; 40],
    }
}
