//! The refusals of the two searches, written from the list and independent of the library: every
//! reason that a call gives is worked out, and the reply is the first of them.

use super::call::{Call, Function};
use crate::damage::{bad_geometry, bad_sides, beyond, last_sample, places};

/// The numbers that can occur, in the order in which they are looked at.
pub fn numbers(function: Function) -> &'static [u8] {
    match function {
        Function::One => &[1, 2, 3, 4, 5, 6, 7, 8, 12],
        Function::Four => &[1, 2, 3, 4, 5, 6, 7, 8, 9, 12],
    }
}

/// All reasons to turn this call back, in order. The reply is the first, or 0 if there is none.
pub fn reasons(call: &Call) -> Vec<u8> {
    let s = &call.search;
    let holds = |number: u8| match number {
        1 => !(1..=7).contains(&s.fcode),
        2 => s.mode > 1,
        3 => s.mode == 1 && !(1..=8).contains(&s.bits_per_pixel),
        4 => bad_geometry(&s.reference),
        5 => s.reference.samples.len() as u128 <= last_sample(&s.reference),
        6 => bad_sides(&s.source),
        7 => (s.source.samples.len() as u128) < places(s.source.width, s.source.height),
        8 => beyond(&s.source, s.column, s.row),
        9 => bad_seed(call),
        12 => {
            let count = call.function.count();
            call.vectors_len != 2 * count || call.sums_len != count
        }
        _ => unreachable!("no such refusal of a search"),
    };
    numbers(call.function).iter().copied().filter(|&number| holds(number)).collect()
}

/// A vector's least and greatest part. A bad fcode is looked at before; the nearest good one counts
/// here.
pub fn range(fcode: u32) -> (i32, i32) {
    let f = 1 << (fcode.clamp(1, 7) - 1);
    (-32 * f, 32 * f - 1)
}

fn bad_seed(call: &Call) -> bool {
    let (low, high) = range(call.search.fcode);
    !(low..=high).contains(&call.seed.0) || !(low..=high).contains(&call.seed.1)
}
