//! `predict_luma_macroblock`, which the original search calls and which is in none of the original
//! files, with the type of a macroblock's motion. The rule is its meaning: one vector, one 16 x 16
//! block by the interpolator of the mode; four, four of 8 x 8, 0 and 1 above 2 and 3, each by itself.

use crate::bvop_prediction::BVopSampleMode;
use crate::half_sample::{interpolate_block_into, ReferenceVop};
use crate::motion::MotionVector;
use crate::quarter_sample::interpolate_block_qpel_into;

#[derive(Clone, Copy, Debug, PartialEq)]
pub enum PvopMbMotion {
    OneMv(MotionVector),
    FourMv([MotionVector; 4]),
}

impl PvopMbMotion {
    /// Of a vector's horizontal and vertical.
    pub fn one(x: i32, y: i32) -> Self {
        PvopMbMotion::OneMv(MotionVector { x, y })
    }

    /// Of each vector's horizontal, then vertical.
    pub fn four(parts: &[i32; 8]) -> Self {
        let vector = |b: usize| MotionVector { x: parts[2 * b], y: parts[2 * b + 1] };
        PvopMbMotion::FourMv(std::array::from_fn(vector))
    }
}

/// The original may answer that there is nothing to predict (for intra); here there always is.
pub fn predict_luma_macroblock(
    motion: PvopMbMotion,
    reference: &ReferenceVop<'_>,
    mb_x: i32,
    mb_y: i32,
    rounding: u8,
    mode: BVopSampleMode,
) -> Option<[u8; 256]> {
    let mut block = [0; 256];
    match motion {
        PvopMbMotion::OneMv(vector) => {
            luma_square(vector, reference, (mb_x, mb_y), 16, rounding, mode, &mut block)
        }
        PvopMbMotion::FourMv(vectors) => {
            for (b, vector) in vectors.into_iter().enumerate() {
                let (right, down) = (8 * (b % 2), 8 * (b / 2));
                let corner = (mb_x + right as i32, mb_y + down as i32);
                let mut eight = [0; 64];
                luma_square(vector, reference, corner, 8, rounding, mode, &mut eight);
                for (j, row) in eight.chunks(8).enumerate() {
                    block[16 * (down + j) + right..][..8].copy_from_slice(row);
                }
            }
        }
    }
    Some(block)
}

fn luma_square(
    MotionVector { x, y }: MotionVector,
    reference: &ReferenceVop<'_>,
    (left, top): (i32, i32),
    side: usize,
    rounding: u8,
    mode: BVopSampleMode,
    out: &mut [u8],
) {
    match mode {
        BVopSampleMode::HalfPel => {
            interpolate_block_into(reference, x, y, left, top, side, side, rounding, out)
        }
        BVopSampleMode::QuarterPel { bits_per_pixel: bits } => {
            interpolate_block_qpel_into(reference, x, y, left, top, side, side, rounding, bits, out)
        }
    }
}
