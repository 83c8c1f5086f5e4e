//! The refusals of the two interpolations, written from the list and independent of the library:
//! every reason that a call gives is worked out, and the reply is the first of them.

use super::call::{Call, Function};
use crate::ask::Block;
use crate::damage::{bad_geometry, last_sample};

/// The numbers that can occur, in the order in which they are looked at.
pub fn numbers(function: Function) -> &'static [u8] {
    match function {
        Function::Half => &[4, 5, 8, 12, 14],
        Function::Quarter => &[3, 4, 5, 8, 12, 14],
    }
}

/// All reasons to turn this call back, in order. The reply is the first, or 0 if there is none.
pub fn reasons(call: &Call) -> Vec<u8> {
    let holds = |number: u8| match number {
        3 => !(1..=8).contains(&call.bits_per_pixel),
        4 => bad_geometry(&call.reference),
        5 => call.reference.samples.len() as u128 <= last_sample(&call.reference),
        8 => bad_place(&call.block),
        12 => call.out_len as u128 != area(&call.block),
        14 => ![8, 16].contains(&call.block.block_w) || ![8, 16].contains(&call.block.block_h),
        _ => unreachable!("no such refusal of an interpolation"),
    };
    numbers(call.function).iter().copied().filter(|&number| holds(number)).collect()
}

fn bad_place(b: &Block) -> bool {
    let origin = -4096..=4096;
    let vector = -2048..=2047;
    !origin.contains(&b.origin_x)
        || !origin.contains(&b.origin_y)
        || !vector.contains(&b.mv_x)
        || !vector.contains(&b.mv_y)
}

/// The exact product of the sides.
pub fn area(b: &Block) -> u128 {
    b.block_w as u128 * b.block_h as u128
}
