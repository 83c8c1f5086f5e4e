//! The searches for a macroblock's vectors.

use crate::refusal::done;
use crate::{raw, Mode, MotionVector, Place, Reference, Refusal, Source};

/// What is searched for, and where.
///
/// Refused: 1 where `fcode` is not 1 to 7, 2 and 3 as [`Mode`] says, 4 and 5 as [`Reference`], 6 and
/// 7 as [`Source`], 8 as [`Place`].
#[derive(Clone, Copy, Debug)]
pub struct Search<'a> {
    /// The picture, of which only luma is read.
    pub source: Source<'a>,
    /// The macroblock.
    pub place: Place,
    /// Where it is searched for.
    pub reference: Reference<'a>,
    /// The vectors' units.
    pub mode: Mode,
    /// Vectors are -32F to 32F - 1, F being 2^(`fcode` - 1).
    pub fcode: u32,
}

/// A vector, and the sum of absolute differences at it.
#[derive(Clone, Copy, Debug, PartialEq, Eq)]
pub struct Estimated {
    /// In the mode's units.
    pub vector: MotionVector,
    /// Over the macroblock's 256 luma samples.
    pub sum: u32,
}

/// The vectors of a macroblock's four 8 x 8 blocks, 0 and 1 above 2 and 3, and their sums.
#[derive(Clone, Copy, Debug, PartialEq, Eq)]
pub struct EstimatedFour {
    /// In the mode's units.
    pub vectors: [MotionVector; 4],
    /// Each over its block's 64 luma samples.
    pub sums: [u32; 4],
}

/// The motion vector of a macroblock.
///
/// Refused: as [`Search`] says.
///
/// ```
/// use hencouch::{estimate_motion, Mode, MotionVector, Place, Reference, Refusal, Search, Source};
///
/// // The picture is the reference moved by 3 samples to the left and 1 up.
/// let texture = |x: usize, y: usize| (x * x * 7 + y * y * 13 + x * y * 5) as u8;
/// let now: Vec<u8> = (0..48 * 32).map(|k| texture(k % 48 + 3, k / 48 + 1)).collect();
/// let before: Vec<u8> = (0..48 * 32).map(|k| texture(k % 48, k / 48)).collect();
/// let search = Search {
///     source: Source::luma(&now, 48, 32),
///     place: Place { column: 1, row: 0 },
///     reference: Reference { samples: &before, width: 48, height: 32, stride: 48 },
///     mode: Mode::HALF,
///     fcode: 1,
/// };
/// let found = estimate_motion(&search)?;
/// assert_eq!((found.vector, found.sum), (MotionVector { x: 6, y: 2 }, 0));
///
/// let outside = Search { place: Place { column: 3, row: 0 }, ..search };
/// assert_eq!(estimate_motion(&outside), Err(Refusal::Place));
/// # Ok::<(), Refusal>(())
/// ```
pub fn estimate_motion(search: &Search) -> Result<Estimated, Refusal> {
    let Search { source, place, reference, mode, fcode } = *search;
    let (mut vector, mut sum) = ([0; 2], [0; 1]);
    done(raw::estimate_motion(
        source.y, source.width, source.height, place.column, place.row, reference.samples,
        reference.width, reference.height, reference.stride, mode.mode, mode.bits_per_pixel, fcode,
        &mut vector, &mut sum,
    ))?;
    Ok(Estimated { vector: vector_of(vector), sum: sum[0] })
}

/// The vectors of the macroblock's four 8 x 8 blocks, searched for around a seed.
///
/// Refused: as [`Search`] says, and 9 where the seed is outside `fcode`'s range.
///
/// ```
/// use hencouch::{estimate_motion_4mv, Mode, MotionVector, Place, Reference, Refusal, Search, Source};
///
/// let samples: Vec<u8> = (0..32 * 32).map(|k| (k * k % 251) as u8).collect();
/// let search = Search {
///     source: Source::luma(&samples, 32, 32),
///     place: Place { column: 1, row: 1 },
///     reference: Reference { samples: &samples, width: 32, height: 32, stride: 32 },
///     mode: Mode::quarter(8),
///     fcode: 1,
/// };
/// let found = estimate_motion_4mv(&search, MotionVector { x: 4, y: 0 })?;
/// assert_eq!(found.vectors, [MotionVector { x: 0, y: 0 }; 4]);
/// assert_eq!(found.sums, [0; 4]);
///
/// let refused = estimate_motion_4mv(&search, MotionVector { x: 32, y: 0 });
/// assert_eq!(refused, Err(Refusal::Seed));
/// # Ok::<(), Refusal>(())
/// ```
pub fn estimate_motion_4mv(search: &Search, seed: MotionVector) -> Result<EstimatedFour, Refusal> {
    let Search { source, place, reference, mode, fcode } = *search;
    let (mut vectors, mut sums) = ([0; 8], [0; 4]);
    done(raw::estimate_motion_4mv(
        source.y, source.width, source.height, place.column, place.row, reference.samples,
        reference.width, reference.height, reference.stride, mode.mode, mode.bits_per_pixel, fcode,
        seed.x, seed.y, &mut vectors, &mut sums,
    ))?;
    Ok(EstimatedFour { vectors: vectors_of(vectors), sums })
}

/// Horizontal, then vertical.
pub(crate) fn vector_of([x, y]: [i32; 2]) -> MotionVector {
    MotionVector { x, y }
}

/// Each vector's horizontal, then vertical.
pub(crate) fn vectors_of(numbers: [i32; 8]) -> [MotionVector; 4] {
    std::array::from_fn(|k| vector_of([numbers[2 * k], numbers[2 * k + 1]]))
}

/// And back.
pub(crate) fn parts_of(vectors: &[MotionVector; 4]) -> [i32; 8] {
    std::array::from_fn(|k| [vectors[k / 2].x, vectors[k / 2].y][k % 2])
}
