//! Valid calls on random planes and pictures: some on each, which is made anew for every turn.

use crate::random::Random;
use crate::summary::Row;

/// What the calls of a turn are lent for reading.
pub trait Lendable {
    /// The one for the given turn of a run.
    fn random(turn: usize, random: &mut Random) -> Self;

    /// No call may change it.
    fn unchanged(&self) -> bool;
}

/// So many valid calls, so many on each.
pub fn calls<L: Lendable>(
    count: usize,
    each: usize,
    row: &mut Row,
    random: &mut Random,
    mut call: impl FnMut(&L, &mut Row, &mut Random),
) {
    for turn in 0..count.div_ceil(each) {
        let lent = L::random(turn, random);
        let left = count - turn * each;
        for _ in 0..left.min(each) {
            call(&lent, row, random);
        }
        row.unchanged(lent.unchanged());
    }
}
