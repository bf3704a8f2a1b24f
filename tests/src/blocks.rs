//! The XOR of blocks, made through the C interface and by `second`: both must leave the same bytes.

use crate::c::{shelf_xor, shelf_xor_four};
use crate::lent::Lent;
use crate::through_c::Empty;

/// `shelf_xor`, which writes nothing but the block.
pub fn xor(into: &mut [u8], from: &[u8]) {
    let due = |block: &mut [u8]| second::xor(block, from);
    both(into, [from], due, |taking, [given]| {
        // SAFETY: each pointer and length are those of one buffer, and the two share no byte.
        unsafe { shelf_xor(taking.0, taking.1, given.0, given.1) }
    });
}

/// `shelf_xor_four`, likewise.
pub fn xor_four(into: &mut [u8], operands: [&[u8]; 4]) {
    let due = |block: &mut [u8]| second::xor_four(block, operands);
    both(into, operands, due, |taking, [a, b, c, d]| {
        // SAFETY: as above.
        unsafe { shelf_xor_four(taking.0, taking.1, a.0, a.1, b.0, b.1, c.0, c.1, d.0, d.1) }
    });
}

/// Lends the block and the operands, each between guard bytes, once with NULL for those of no
/// bytes.
fn both<const N: usize>(
    into: &mut [u8],
    operands: [&[u8]; N],
    due: impl Fn(&mut [u8]),
    call: impl Fn((*mut u8, usize), [(*const u8, usize); N]),
) {
    let before = into.to_vec();
    due(into);
    for empty in [Empty::Null, Empty::Place] {
        let mut taking = Lent::new("block", &before);
        let mut given = operands.map(|bytes| Lent::new("operand", bytes));
        let places = given
            .each_mut()
            .map(|lent| (empty.pointer(lent).cast_const(), lent.len()));
        call((empty.pointer(&mut taking), before.len()), places);
        for (lent, bytes) in given.into_iter().zip(operands) {
            lent.back_unchanged(bytes);
        }
        let lengths = operands.map(<[u8]>::len);
        assert!(
            taking.back() == into,
            "{} and {lengths:?} bytes",
            before.len()
        );
    }
}
