//! Samples of a reference, and between them: 7.6.2.1 and 7.6.2.2.

use crate::refusal::{done, never_refused};
use crate::{raw, MotionVector, Point, Reference, Refusal};

/// A vector's component in half samples.
#[derive(Clone, Copy, Debug, PartialEq, Eq)]
pub struct HalfPel {
    /// Whole samples, rounded down.
    pub whole: i32,
    /// Whether half a sample is left.
    pub half: bool,
}

/// A vector's component in quarter samples.
#[derive(Clone, Copy, Debug, PartialEq, Eq)]
pub struct QuarterPel {
    /// Whole samples, rounded down.
    pub whole: i32,
    /// The quarters left, 0 to 3.
    pub fraction: u8,
}

/// A block to predict.
///
/// Refused: 8 where `origin` is outside -4,096 to 4,096 or `vector` outside -2,048 to 2,047, 14
/// where a side is neither 8 nor 16.
#[derive(Clone, Copy, Debug, PartialEq, Eq)]
pub struct Block {
    /// In half or quarter samples.
    pub vector: MotionVector,
    /// Where the block stands in the picture.
    pub origin: Point,
    /// 8 or 16.
    pub block_w: usize,
    /// 8 or 16.
    pub block_h: usize,
    /// The rounding type. Interpolation keeps its low bit; [`crate::predict_luma_block`] refuses one
    /// above 1.
    pub rounding: u8,
}

/// Predicts a block by half-sample interpolation (7.6.2.1), row by row.
///
/// Refused: 4 and 5 as [`Reference`] says, 8 and 14 as [`Block`] says, 12 where `out` is not
/// `block_w * block_h` long.
///
/// ```
/// use hencouch::{interpolate_block_into, Block, MotionVector, Point, Reference, Refusal};
///
/// // Columns of 0, 7, 14 ...: half a sample to the right of 14 lies 17.5, which is rounded up.
/// let samples: Vec<u8> = (0..32 * 16).map(|k| (k % 32 * 7) as u8).collect();
/// let reference = Reference { samples: &samples, width: 32, height: 16, stride: 32 };
/// let vector = MotionVector { x: 1, y: 0 };
/// let block =
///     Block { vector, origin: Point { x: 2, y: 0 }, block_w: 8, block_h: 8, rounding: 0 };
/// let mut out = [0; 64];
/// interpolate_block_into(&reference, &block, &mut out)?;
/// assert_eq!(out[..3], [18, 25, 32]);
///
/// let few = Reference { samples: &samples[1..], ..reference };
/// let refused = interpolate_block_into(&few, &block, &mut out);
/// assert_eq!(refused, Err(Refusal::ReferenceBytes));
/// # Ok::<(), Refusal>(())
/// ```
pub fn interpolate_block_into(
    reference: &Reference,
    block: &Block,
    out: &mut [u8],
) -> Result<(), Refusal> {
    let Reference { samples, width, height, stride } = *reference;
    let Block { vector, origin, block_w, block_h, rounding } = *block;
    done(raw::interpolate_block_into(
        samples, width, height, stride, vector.x, vector.y, origin.x, origin.y, block_w, block_h,
        rounding, out,
    ))
}

/// Predicts a block by quarter-sample interpolation (7.6.2.2), row by row. Interpolated samples are
/// cut to 0 to 2^`bits_per_pixel` - 1; a vector of whole samples returns samples as they are.
///
/// Refused: 3 where `bits_per_pixel` is not 1 to 8, 4, 5, 8, 12 and 14 as for
/// [`interpolate_block_into`].
///
/// ```
/// use hencouch::{interpolate_block_qpel_into, Block, MotionVector, Point, Reference, Refusal};
///
/// let samples = [200; 16 * 16];
/// let reference = Reference { samples: &samples, width: 16, height: 16, stride: 16 };
/// let (vector, origin) = (MotionVector { x: -5, y: 3 }, Point { x: 0, y: 0 });
/// let block = Block { vector, origin, block_w: 16, block_h: 16, rounding: 0 };
/// let mut out = [0; 256];
/// interpolate_block_qpel_into(&reference, &block, 8, &mut out)?;
/// assert_eq!(out, [200; 256]);
/// interpolate_block_qpel_into(&reference, &block, 4, &mut out)?;
/// assert_eq!(out, [15; 256]);
///
/// let refused = interpolate_block_qpel_into(&reference, &block, 9, &mut out);
/// assert_eq!(refused, Err(Refusal::BitsPerPixel));
/// # Ok::<(), Refusal>(())
/// ```
pub fn interpolate_block_qpel_into(
    reference: &Reference,
    block: &Block,
    bits_per_pixel: u32,
    out: &mut [u8],
) -> Result<(), Refusal> {
    let Reference { samples, width, height, stride } = *reference;
    let Block { vector, origin, block_w, block_h, rounding } = *block;
    done(raw::interpolate_block_qpel_into(
        samples, width, height, stride, vector.x, vector.y, origin.x, origin.y, block_w, block_h,
        rounding, bits_per_pixel, out,
    ))
}

/// The sample between four: `a` and `b` above `c` and `d`, half a sample to the right, down, both or
/// neither (7.6.2.1). Only the low bit of the rounding type counts. Never refused.
///
/// ```
/// use hencouch::interpolate_pixel;
///
/// assert_eq!(interpolate_pixel([1, 2, 0, 0], true, false, 0), 2);
/// assert_eq!(interpolate_pixel([1, 2, 0, 0], true, false, 1), 1);
/// assert_eq!(interpolate_pixel([0, 0, 1, 1], true, true, 0), 1);
/// ```
pub fn interpolate_pixel(around: [u8; 4], half_x: bool, half_y: bool, rounding: u8) -> u8 {
    let [a, b, c, d] = around;
    let mut sample = 0;
    let (half_x, half_y) = (half_x.into(), half_y.into());
    never_refused(raw::interpolate_pixel(a, b, c, d, half_x, half_y, rounding, &mut sample));
    sample
}

/// A component in half samples, split by an arithmetic shift. Never refused.
///
/// ```
/// use hencouch::{split_half_pel, HalfPel};
///
/// assert_eq!(split_half_pel(-1), HalfPel { whole: -1, half: true });
/// assert_eq!(split_half_pel(-2), HalfPel { whole: -1, half: false });
/// ```
pub fn split_half_pel(mv: i32) -> HalfPel {
    let (mut whole, mut half) = (0, 0);
    never_refused(raw::split_half_pel(mv, &mut whole, &mut half));
    HalfPel { whole, half: half != 0 }
}

/// A component in quarter samples, split by an arithmetic shift. Never refused.
///
/// ```
/// use hencouch::{split_quarter_pel, QuarterPel};
///
/// assert_eq!(split_quarter_pel(-5), QuarterPel { whole: -2, fraction: 3 });
/// ```
pub fn split_quarter_pel(mv: i32) -> QuarterPel {
    let (mut whole, mut fraction) = (0, 0);
    never_refused(raw::split_quarter_pel(mv, &mut whole, &mut fraction));
    QuarterPel { whole, fraction }
}

/// A sample of the reference; a point outside it is clamped into it.
///
/// Refused: 4 and 5 as [`Reference`] says.
///
/// ```
/// use hencouch::{fetch_clamped, Point, Reference, Refusal};
///
/// let reference = Reference { samples: &[1, 2, 0, 3, 4], width: 2, height: 2, stride: 3 };
/// assert_eq!(fetch_clamped(&reference, Point { x: 1, y: 1 })?, 4);
/// assert_eq!(fetch_clamped(&reference, Point { x: 9, y: -9 })?, 2);
///
/// let narrow = Reference { stride: 1, ..reference };
/// assert_eq!(fetch_clamped(&narrow, Point { x: 0, y: 0 }), Err(Refusal::ReferenceSize));
/// # Ok::<(), Refusal>(())
/// ```
pub fn fetch_clamped(reference: &Reference, at: Point) -> Result<u8, Refusal> {
    let Reference { samples, width, height, stride } = *reference;
    let mut sample = 0;
    done(raw::fetch_clamped(samples, width, height, stride, at.x, at.y, &mut sample))?;
    Ok(sample)
}

/// Copies the block at a point, row by row; what lies outside the reference is clamped into it.
///
/// Refused: 4 and 5 as [`Reference`] says, 12 where `out` is not `block_w * block_h` long.
///
/// ```
/// use hencouch::{copy_block, Point, Reference, Refusal};
///
/// let reference = Reference { samples: &[1, 2, 3, 4], width: 2, height: 2, stride: 2 };
/// let mut out = [0; 6];
/// copy_block(&reference, Point { x: 0, y: 1 }, 3, 2, &mut out)?;
/// assert_eq!(out, [3, 4, 4, 3, 4, 4]);
///
/// let refused = copy_block(&reference, Point { x: 0, y: 1 }, 3, 3, &mut out);
/// assert_eq!(refused, Err(Refusal::Length));
/// # Ok::<(), Refusal>(())
/// ```
pub fn copy_block(
    reference: &Reference,
    at: Point,
    block_w: usize,
    block_h: usize,
    out: &mut [u8],
) -> Result<(), Refusal> {
    let Reference { samples, width, height, stride } = *reference;
    done(raw::copy_block(samples, width, height, stride, at.x, at.y, block_w, block_h, out))
}
