//! One macroblock: the source's blocks, `intra_activity`, `macroblock_residual`, `quantise_inter_block`,
//! `quantise_inter_residual`, `inter_cbp`, and `code_macroblock` and `code_predicted_macroblock`, which
//! search and code. Every answer of the two is also held to demand 3's sentences, by a reader written
//! for it.

mod activity;
mod demand;
pub mod lent;
mod lists;
mod pattern;
pub mod planes;
pub mod predicted;
mod quantising;
mod reader;
mod residual;
mod source;
pub mod whole;

use crate::options::Options;
use crate::random::Random;
use crate::summary::Row;

pub fn compare(options: &Options) -> Vec<Row> {
    let parts: [fn(&Options) -> Vec<Row>; 6] = [
        source::compare,
        activity::compare,
        residual::compare,
        quantising::compare,
        pattern::compare,
        whole::compare,
    ];
    parts.iter().flat_map(|compare| compare(options)).collect()
}

/// Each part has its own generator, so that the count of one doesn't change the calls of another.
fn generator(options: &Options, part: u64) -> Random {
    Random::new(options.seed.wrapping_add((0x300 + part) << 48))
}
