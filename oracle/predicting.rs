//! The prediction made here: `chroma_vector` and `chroma_vector_4mv`, `predict_macroblock` and
//! `predict_macroblock_4mv`, against `predicted`, which is put together of the originals.

mod call;
mod chroma;
mod damage;
pub mod forms;
mod listed;
mod marks;
mod planes;
mod refusal;
mod rules;
mod samples;
mod valid;

use crate::options::Options;
use crate::pvop_mv::PvopMbMotion;
use crate::random::Random;
use crate::summary::Row;

pub fn compare(options: &Options) -> Vec<Row> {
    let parts: [fn(Count, &Options) -> Row; 2] = [chroma::compare, samples::compare];
    parts.iter().flat_map(|compare| Count::BOTH.map(|count| compare(count, options))).collect()
}

/// How many vectors move a macroblock.
#[derive(Clone, Copy, Debug, PartialEq)]
pub enum Count {
    One,
    Four,
}

impl Count {
    const BOTH: [Count; 2] = [Count::One, Count::Four];

    /// So many parts count.
    fn parts(self) -> usize {
        match self {
            Count::One => 2,
            Count::Four => 8,
        }
    }

    fn motion(self, parts: &[i32; 8]) -> PvopMbMotion {
        match self {
            Count::One => PvopMbMotion::one(parts[0], parts[1]),
            Count::Four => PvopMbMotion::four(parts),
        }
    }
}

/// Each part has its own generator, so that the count of one doesn't change the calls of another.
fn generator(options: &Options, count: Count, part: u64) -> Random {
    let part = 0x800 + part + 4 * (count == Count::Four) as u64;
    Random::new(options.seed.wrapping_add(part << 48))
}

/// A part of a vector beyond its limits.
fn beyond_limits(parts: &mut [i32], random: &mut Random) {
    let far = random.pick(&[i32::MIN, i32::MAX, 1 << 16, -4097]);
    parts[random.size(0, parts.len() - 1)] = random.pick(&[-2049, 2048, -2049, 2048, far]);
}

/// Whether a part is beyond them.
fn bad_parts(parts: &[i32]) -> bool {
    parts.iter().any(|part| !(-2048..=2047).contains(part))
}
