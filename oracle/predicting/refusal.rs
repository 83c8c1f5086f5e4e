//! The refusals of the entries that predict a macroblock, written from the list and independent of
//! the library: every reason that a call gives is worked out, and the reply is the first of them.

use super::call::Call;
use super::{bad_parts, Count};
use crate::damage::planes;

/// The numbers that can occur, in the order in which they are looked at.
pub const NUMBERS: &[u8] = &[2, 3, 4, 5, 8, 12, 31];

/// The greatest column and row: every block of a macroblock begins at 4,096 or before.
pub fn farthest(count: Count) -> usize {
    match count {
        Count::One => 256,
        Count::Four => 255,
    }
}

/// All reasons to turn this call back, in order. The reply is the first, or 0 if there is none.
pub fn reasons(call: &Call) -> Vec<u8> {
    let most = farthest(call.count);
    let far = call.column > most || call.row > most;
    let [sizes, samples] = planes::reasons(&call.reference);
    let all = [
        (2, call.mode > 1),
        (3, call.mode == 1 && !(1..=8).contains(&call.bits_per_pixel)),
        sizes,
        samples,
        (8, far || bad_parts(&call.parts[..call.count.parts()])),
        (12, call.lens != [256, 64, 64]),
        (31, call.rounding > 1),
    ];
    all.iter().filter(|reason| reason.1).map(|reason| reason.0).collect()
}
