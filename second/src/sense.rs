//! Sense: "37 bytes with its length, zeros after and in every byte not named".

/// Bytes of the sense room that a call writes.
pub const SENSE_SIZE: usize = 37;

const PLAIN_SIZE: usize = 18;
const NESTED: u8 = 0x0B;

/// Key and code pair of a plain sense.
#[derive(Clone, Copy, PartialEq, Eq, Debug)]
pub struct Codes(pub u8, pub u8, pub u8);

/// The bytes of a sense and how many of them count.
#[derive(Clone, Copy, PartialEq, Eq, Debug)]
pub struct Sense {
    pub bytes: [u8; SENSE_SIZE],
    pub length: usize,
}

impl Sense {
    /// "An answer without sense has zeros and length 0".
    pub fn none() -> Sense {
        Sense {
            bytes: [0; SENSE_SIZE],
            length: 0,
        }
    }

    /// The sense of a refusal by the target itself.
    pub fn plain(codes: Codes) -> Sense {
        let mut sense = Sense::none();
        sense.bytes[..PLAIN_SIZE].copy_from_slice(&plain_bytes(codes));
        sense.length = PLAIN_SIZE;
        sense
    }

    /// The sense for another drive whose address is not in the table.
    pub fn unknown_address() -> Sense {
        let mut sense = Sense::plain(Codes(NESTED, 0, 0));
        sense.bytes[7] = 0x1C;
        sense.bytes[8] = 0x12;
        sense.bytes[18..36].copy_from_slice(&plain_bytes(Codes(NESTED, 0x08, 0)));
        sense.length = 36;
        sense
    }

    /// The sense for another drive that answered CHECK CONDITION itself.
    pub fn nested(inner: Codes) -> Sense {
        let mut sense = Sense::plain(Codes(NESTED, 0, 0));
        sense.bytes[7] = 0x1D;
        sense.bytes[9] = 0x12;
        sense.bytes[18] = 0x02;
        sense.bytes[19..37].copy_from_slice(&plain_bytes(inner));
        sense.length = 37;
        sense
    }
}

/// "Plain: 18 bytes, byte 0 70h, 2 key, 7 0Ah, 12 and 13 the code pair."
fn plain_bytes(codes: Codes) -> [u8; PLAIN_SIZE] {
    let mut bytes = [0; PLAIN_SIZE];
    bytes[0] = 0x70;
    bytes[2] = codes.0;
    bytes[7] = 0x0A;
    bytes[12] = codes.1;
    bytes[13] = codes.2;
    bytes
}
