//! Luma predicted in either mode, and the blocks of a source.

use crate::refusal::done;
use crate::search::parts_of;
use crate::{raw, Block, Mode, MotionVector, Place, Point, Reference, Refusal, Source};

/// Predicts a luma block in either mode, row by row.
///
/// Refused: 2 and 3 as [`Mode`] says, 4 and 5 as [`Reference`], 8 and 14 as [`Block`], 12 where
/// `out` is not `block_w * block_h` long, 31 where the rounding type is above 1.
///
/// ```
/// use hencouch::{predict_luma_block, Block, Mode, MotionVector, Point, Reference, Refusal};
///
/// let samples: Vec<u8> = (0..32 * 16).map(|k| (k % 32 * 8) as u8).collect();
/// let reference = Reference { samples: &samples, width: 32, height: 16, stride: 32 };
/// let (vector, origin) = (MotionVector { x: 4, y: 0 }, Point { x: 8, y: 4 });
/// let block = Block { vector, origin, block_w: 8, block_h: 8, rounding: 0 };
/// let mut out = [0; 64];
/// predict_luma_block(&reference, Mode::HALF, &block, &mut out)?;
/// assert_eq!(out[..2], [80, 88]);
/// predict_luma_block(&reference, Mode::quarter(8), &block, &mut out)?;
/// assert_eq!(out[..2], [72, 80]);
///
/// let neither = Mode { mode: 2, bits_per_pixel: 8 };
/// let refused = predict_luma_block(&reference, neither, &block, &mut out);
/// assert_eq!(refused, Err(Refusal::Mode));
/// # Ok::<(), Refusal>(())
/// ```
pub fn predict_luma_block(
    reference: &Reference,
    mode: Mode,
    block: &Block,
    out: &mut [u8],
) -> Result<(), Refusal> {
    let Reference { samples, width, height, stride } = *reference;
    let Mode { mode, bits_per_pixel } = mode;
    let Block { vector, origin, block_w, block_h, rounding } = *block;
    done(raw::predict_luma_block(
        samples, width, height, stride, mode, bits_per_pixel, vector.x, vector.y, origin.x,
        origin.y, block_w, block_h, rounding, out,
    ))
}

/// Predicts a macroblock's 16 x 16 luma samples with one vector, row by row.
///
/// Refused: 2 and 3 as [`Mode`] says, 4 and 5 as [`Reference`], 8 where the origin is outside -4,096
/// to 4,096 or the vector outside -2,048 to 2,047, 12 where `out` is not 256 long, 31 where
/// `rounding` is above 1.
///
/// ```
/// use hencouch::{predict_luma_macroblock, Mode, MotionVector, Point, Reference, Refusal};
///
/// let samples: Vec<u8> = (0..32 * 16).map(|k| (k % 32 * 8) as u8).collect();
/// let reference = Reference { samples: &samples, width: 32, height: 16, stride: 32 };
/// let (vector, origin) = (MotionVector { x: 1, y: 0 }, Point { x: 0, y: 0 });
/// let mut out = [0; 256];
/// predict_luma_macroblock(&reference, Mode::HALF, vector, origin, 0, &mut out)?;
/// assert_eq!(out[..3], [4, 12, 20]);
///
/// let far = MotionVector { x: 2048, y: 0 };
/// let refused = predict_luma_macroblock(&reference, Mode::HALF, far, origin, 0, &mut out);
/// assert_eq!(refused, Err(Refusal::Place));
/// # Ok::<(), Refusal>(())
/// ```
pub fn predict_luma_macroblock(
    reference: &Reference,
    mode: Mode,
    vector: MotionVector,
    origin: Point,
    rounding: u8,
    out: &mut [u8],
) -> Result<(), Refusal> {
    let Reference { samples, width, height, stride } = *reference;
    let Mode { mode, bits_per_pixel } = mode;
    done(raw::predict_luma_macroblock(
        samples, width, height, stride, mode, bits_per_pixel, vector.x, vector.y, origin.x,
        origin.y, rounding, out,
    ))
}

/// Predicts a macroblock's 16 x 16 luma samples with a vector for each 8 x 8 block, 0 and 1 above 2
/// and 3.
///
/// Refused: as [`predict_luma_macroblock`], 8 for each block's vector and its own origin.
///
/// ```
/// use hencouch::{predict_luma_macroblock_4mv, Mode, MotionVector, Point, Reference, Refusal};
///
/// let samples: Vec<u8> = (0..32 * 16).map(|k| (k % 32 * 8) as u8).collect();
/// let reference = Reference { samples: &samples, width: 32, height: 16, stride: 32 };
/// let vectors = [0, 2, 4, 6].map(|x| MotionVector { x, y: 0 });
/// let mut out = [0; 256];
/// predict_luma_macroblock_4mv(
///     &reference, Mode::HALF, &vectors, Point { x: 0, y: 0 }, 0, &mut out,
/// )?;
/// assert_eq!((out[0], out[8], out[128], out[136]), (0, 72, 16, 88));
///
/// let refused = predict_luma_macroblock_4mv(
///     &reference, Mode::HALF, &vectors, Point { x: 4090, y: 0 }, 0, &mut out,
/// );
/// assert_eq!(refused, Err(Refusal::Place));
/// # Ok::<(), Refusal>(())
/// ```
pub fn predict_luma_macroblock_4mv(
    reference: &Reference,
    mode: Mode,
    vectors: &[MotionVector; 4],
    origin: Point,
    rounding: u8,
    out: &mut [u8],
) -> Result<(), Refusal> {
    let Reference { samples, width, height, stride } = *reference;
    let Mode { mode, bits_per_pixel } = mode;
    let parts = &parts_of(vectors);
    done(raw::predict_luma_macroblock_4mv(
        samples, width, height, stride, mode, bits_per_pixel, parts, origin.x, origin.y, rounding,
        out,
    ))
}

/// A macroblock's 16 x 16 luma samples, row by row. Of the source only luma is read.
///
/// Refused: 6 and 7 as [`Source`] says, 8 as [`Place`], 12 where `out` is not 256 long.
///
/// ```
/// use hencouch::{source_luma_block, Place, Refusal, Source};
///
/// let source = Source::luma(&[1, 2, 3, 4], 2, 2);
/// let mut out = [0; 256];
/// source_luma_block(&source, Place { column: 0, row: 0 }, &mut out)?;
/// assert_eq!((out[0], out[1], out[15], out[16], out[255]), (1, 2, 2, 3, 4));
///
/// let refused = source_luma_block(&source, Place { column: 1, row: 0 }, &mut out);
/// assert_eq!(refused, Err(Refusal::Place));
/// # Ok::<(), Refusal>(())
/// ```
pub fn source_luma_block(source: &Source, place: Place, out: &mut [u8]) -> Result<(), Refusal> {
    let Source { y, width, height, .. } = *source;
    done(raw::source_luma_block(y, width, height, place.column, place.row, out))
}

/// A macroblock's 8 x 8 samples of a chroma plane, row by row. The width and height are luma's.
///
/// Refused: 6 where a side is not 1 to 4,096, 7 where `chroma` is shorter than half of them, rounded
/// up, times each other, 8 as [`Place`] says, 12 where `out` is not 64 long.
///
/// ```
/// use hencouch::{source_chroma_block, Place, Refusal};
///
/// let mut out = [0; 64];
/// source_chroma_block(&[5, 6, 7, 8], 3, 4, Place { column: 0, row: 0 }, &mut out)?;
/// assert_eq!((out[0], out[7], out[8], out[63]), (5, 6, 7, 8));
///
/// let refused = source_chroma_block(&[5; 3], 3, 4, Place { column: 0, row: 0 }, &mut out);
/// assert_eq!(refused, Err(Refusal::SourcePlane));
/// # Ok::<(), Refusal>(())
/// ```
pub fn source_chroma_block(
    chroma: &[u8],
    width: usize,
    height: usize,
    place: Place,
    out: &mut [u8],
) -> Result<(), Refusal> {
    done(raw::source_chroma_block(chroma, width, height, place.column, place.row, out))
}
