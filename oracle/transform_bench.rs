//! The transform, timed: blocks of noise, of small numbers, and with few numbers that are not 0.
//! Output areas are not cleared between calls. The library judges its arguments in every call.

use crate::fdct;
use crate::random::Random;
use crate::table::{Over, Table};
use crate::timing::{measure, Times, MIX};
use crate::wanted::Wanted;
use hencouch::raw;
use std::hint::black_box;
use std::time::Duration;

const PASSES: usize = 6;
const BUDGET: Duration = Duration::from_millis(50);

/// A name, the greatest number, and how many of a hundred numbers are not 0.
const SORTS: [(&str, i32, u64); 3] = [("noise", 255, 100), ("small", 12, 100), ("sparse", 60, 10)];

pub fn bench(wanted: &mut Wanted) {
    let mut random = Random::new(1);
    let mut table = Table::new("transform, a block");
    let sorts = SORTS.map(|(name, most, share)| {
        table.row(format!("transform {name}"), &[("transform", Over::Sums)]);
        let blocks: [[[i32; 8]; 8]; MIX] = std::array::from_fn(|_| block(most, share, &mut random));
        blocks
    });
    table.run(wanted, PASSES, |at, best| best.best(time(&sorts[at])));
}

fn block(most: i32, share: u64, random: &mut Random) -> [[i32; 8]; 8] {
    let mut number = || if random.chance(share) { random.int(-most, most) } else { 0 };
    std::array::from_fn(|_| std::array::from_fn(|_| number()))
}

/// Holds both sides to the same answers, then times them.
fn time(blocks: &[[[i32; 8]; 8]; MIX]) -> Times {
    let flat: Vec<Vec<i32>> = blocks.iter().map(|block| block.concat()).collect();
    let mut out = [0; 64];
    for (block, residual) in blocks.iter().zip(&flat) {
        let reply = raw::forward_dct_8x8(residual, &mut out);
        let wanted = fdct::forward_dct_8x8(block, 8).concat();
        assert_eq!((reply, &out[..]), (0, &wanted[..]), "the sides differ: see make compare");
    }
    let rust = |call: usize| {
        black_box(fdct::forward_dct_8x8(black_box(&blocks[call % MIX]), 8));
    };
    let rattle = |call: usize| {
        let residual = black_box(&flat[call % MIX]);
        let reply = raw::forward_dct_8x8(residual, &mut out);
        black_box((reply, &out));
    };
    measure(rust, rattle, BUDGET)
}
