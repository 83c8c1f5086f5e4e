//! The arguments of generated calls, which may be wrong in any way, as structs, and how they are
//! handed to the library: by `hencouch::raw`, which has every entry argument by argument.

mod macroblock;
mod predicted;
mod search;

use hencouch::raw;

pub use hencouch::{Areas, Prediction, Reference, ReferencePlanes};
pub use macroblock::{
    code_macroblock, code_predicted_macroblock, intra_activity, macroblock_residual,
    quantise_inter_block, quantise_inter_residual, step, step_predicted, Coding, Macroblock,
    Making, Quantising, Record, Run,
};
pub use predicted::{predict_macroblock, predict_macroblock_4mv, Predicting};
pub use search::{estimate_motion, estimate_motion_4mv, Search, Source};

/// A reference's Cb and Cr: sides are half of luma's, rounded up, and one stride is both's.
pub fn chroma_planes<'a>(reference: &ReferencePlanes<'a>) -> [Reference<'a>; 2] {
    let Reference { width, height, .. } = reference.luma;
    let (width, height) = (width.div_ceil(2), height.div_ceil(2));
    let stride = reference.chroma_stride;
    [reference.cb, reference.cr].map(|samples| Reference { samples, width, height, stride })
}

/// The block to predict: its vector, its place in the picture, its sides, the rounding type.
#[derive(Clone, Copy)]
pub struct Block {
    pub mv_x: i32,
    pub mv_y: i32,
    pub origin_x: i32,
    pub origin_y: i32,
    pub block_w: usize,
    pub block_h: usize,
    pub rounding: u8,
}

/// Half-sample prediction.
pub fn interpolate_block_into(r: &Reference, b: &Block, out: &mut [u8]) -> u8 {
    let Reference { samples, width, height, stride } = *r;
    let Block { mv_x, mv_y, origin_x, origin_y, block_w, block_h, rounding } = *b;
    raw::interpolate_block_into(
        samples, width, height, stride, mv_x, mv_y, origin_x, origin_y, block_w, block_h, rounding,
        out,
    )
}

/// Quarter-sample prediction.
pub fn interpolate_block_qpel_into(r: &Reference, b: &Block, bits: u32, out: &mut [u8]) -> u8 {
    let Reference { samples, width, height, stride } = *r;
    let Block { mv_x, mv_y, origin_x, origin_y, block_w, block_h, rounding } = *b;
    raw::interpolate_block_qpel_into(
        samples, width, height, stride, mv_x, mv_y, origin_x, origin_y, block_w, block_h, rounding,
        bits, out,
    )
}
