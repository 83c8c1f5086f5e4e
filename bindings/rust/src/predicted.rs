//! A macroblock's three planes, predicted by its vectors, and its chroma vector.

use crate::refusal::done;
use crate::search::{parts_of, vector_of};
use crate::{raw, Mode, MotionVector, Place, Prediction, Reference, ReferencePlanes, Refusal};

/// Areas lent for a macroblock's prediction, row by row. Refused: 12 where `y` is not 256 long or
/// `cb` or `cr` not 64.
#[derive(Debug)]
pub struct PredictionAreas<'a> {
    /// 16 x 16 luma samples.
    pub y: &'a mut [u8],
    /// 8 x 8 samples of blue chroma.
    pub cb: &'a mut [u8],
    /// 8 x 8 samples of red chroma.
    pub cr: &'a mut [u8],
}

/// Room for a macroblock's prediction.
///
/// ```
/// let mut room = hencouch::Predicted::new();
/// assert_eq!(room.areas().cb.len(), 64);
/// assert_eq!(room.lent().y, [0; 256]);
/// ```
#[derive(Clone, Debug, PartialEq, Eq)]
pub struct Predicted {
    /// As [`PredictionAreas`] has them.
    pub y: [u8; 256],
    /// As [`PredictionAreas`] has them.
    pub cb: [u8; 64],
    /// As [`PredictionAreas`] has them.
    pub cr: [u8; 64],
}

impl Predicted {
    /// Every sample 0.
    pub const fn new() -> Self {
        Predicted { y: [0; 256], cb: [0; 64], cr: [0; 64] }
    }

    /// The three areas, to be lent to a call that predicts.
    pub fn areas(&mut self) -> PredictionAreas<'_> {
        PredictionAreas { y: &mut self.y, cb: &mut self.cb, cr: &mut self.cr }
    }

    /// The samples, to be lent to a call that codes against them.
    pub fn lent(&self) -> Prediction<'_> {
        Prediction { y: &self.y, cb: &self.cb, cr: &self.cr }
    }
}

impl Default for Predicted {
    fn default() -> Self {
        Self::new()
    }
}

/// The chroma vector of a macroblock's one vector, in half samples of chroma, each part by itself. In
/// quarter samples a part is first halved toward zero; it is then in quarters of a chroma sample,
/// whose fractions 1, 2 and 3 become a half. The bits per pixel do not count.
///
/// Refused: 2 where the mode is neither, 8 where a part of the vector is outside -2,048 to 2,047.
///
/// ```
/// use hencouch::{chroma_vector, Mode, MotionVector, Refusal};
///
/// let vector = MotionVector { x: 6, y: -5 };
/// assert_eq!(chroma_vector(Mode::HALF, vector)?, MotionVector { x: 3, y: -3 });
/// assert_eq!(chroma_vector(Mode::quarter(8), vector)?, MotionVector { x: 1, y: -1 });
///
/// let refused = chroma_vector(Mode::HALF, MotionVector { x: 2048, y: 0 });
/// assert_eq!(refused, Err(Refusal::Place));
/// # Ok::<(), Refusal>(())
/// ```
pub fn chroma_vector(mode: Mode, vector: MotionVector) -> Result<MotionVector, Refusal> {
    let mut chroma = [0; 2];
    done(raw::chroma_vector(mode.mode, vector.x, vector.y, &mut chroma))?;
    Ok(vector_of(chroma))
}

/// The chroma vector of a macroblock's four vectors. In quarter samples each part of each is first
/// halved toward zero. The size of the four parts' sum over 16 gives whole samples, of the remainder
/// 0 to 2 add nothing, 3 to 13 a half, 14 and 15 a whole; the sign returns last.
///
/// Refused: as [`chroma_vector`], 8 for each of the four.
///
/// ```
/// use hencouch::{chroma_vector_4mv, Mode, MotionVector, Refusal};
///
/// let vectors = [(7, -3), (7, -3), (0, 0), (0, 0)].map(|(x, y)| MotionVector { x, y });
/// assert_eq!(chroma_vector_4mv(Mode::HALF, &vectors)?, MotionVector { x: 2, y: -1 });
/// assert_eq!(chroma_vector_4mv(Mode::quarter(8), &vectors)?, MotionVector { x: 1, y: 0 });
///
/// let far = [MotionVector { x: 0, y: -2049 }; 4];
/// assert_eq!(chroma_vector_4mv(Mode::HALF, &far), Err(Refusal::Place));
/// # Ok::<(), Refusal>(())
/// ```
pub fn chroma_vector_4mv(mode: Mode, vectors: &[MotionVector; 4]) -> Result<MotionVector, Refusal> {
    let mut chroma = [0; 2];
    done(raw::chroma_vector_4mv(mode.mode, &parts_of(vectors), &mut chroma))?;
    Ok(vector_of(chroma))
}

/// Predicts a macroblock's three planes with one vector: luma in the mode, chroma by half samples at
/// [`chroma_vector`], each at the rounding type.
///
/// Refused: 2 and 3 as [`Mode`] says, 4 and 5 as [`ReferencePlanes`], 8 where the column or the row is
/// above 256 or a part of the vector outside -2,048 to 2,047, 12 as [`PredictionAreas`], 31 where
/// `rounding` is above 1.
///
/// ```
/// use hencouch::{predict_macroblock, Mode, MotionVector, Place, Predicted};
/// use hencouch::{Reference, ReferencePlanes, Refusal};
///
/// let samples: Vec<u8> = (0..32 * 16).map(|k| (k % 32 * 8) as u8).collect();
/// let reference = ReferencePlanes {
///     luma: Reference { samples: &samples, width: 32, height: 16, stride: 32 },
///     cb: &samples,
///     cr: &[90; 16 * 8],
///     chroma_stride: 16,
/// };
/// let (vector, place) = (MotionVector { x: 1, y: 0 }, Place { column: 0, row: 0 });
/// let mut out = Predicted::new();
/// predict_macroblock(&reference, Mode::HALF, vector, place, 0, out.areas())?;
/// assert_eq!((&out.y[..3], &out.cb[..3], out.cr[0]), (&[4, 12, 20][..], &[4, 12, 20][..], 90));
///
/// let refused = predict_macroblock(&reference, Mode::HALF, vector, place, 2, out.areas());
/// assert_eq!(refused, Err(Refusal::RoundingType));
/// # Ok::<(), Refusal>(())
/// ```
pub fn predict_macroblock(
    reference: &ReferencePlanes,
    mode: Mode,
    vector: MotionVector,
    place: Place,
    rounding: u8,
    out: PredictionAreas,
) -> Result<(), Refusal> {
    let ReferencePlanes { luma, cb, cr, chroma_stride } = *reference;
    let Reference { samples, width, height, stride } = luma;
    done(raw::predict_macroblock(
        samples, cb, cr, width, height, stride, chroma_stride, mode.mode, mode.bits_per_pixel,
        vector.x, vector.y, place.column, place.row, rounding, out.y, out.cb, out.cr,
    ))
}

/// Predicts a macroblock's three planes with a vector for each 8 x 8 luma block, 0 and 1 above 2 and
/// 3; chroma by half samples at [`chroma_vector_4mv`].
///
/// Refused: as [`predict_macroblock`], 8 for each block's vector, and where the column or the row is
/// above 255.
///
/// ```
/// use hencouch::{predict_macroblock_4mv, Mode, MotionVector, Place, Predicted};
/// use hencouch::{Reference, ReferencePlanes, Refusal};
///
/// let samples: Vec<u8> = (0..32 * 16).map(|k| (k % 32 * 8) as u8).collect();
/// let reference = ReferencePlanes {
///     luma: Reference { samples: &samples, width: 32, height: 16, stride: 32 },
///     cb: &samples,
///     cr: &[90; 16 * 8],
///     chroma_stride: 16,
/// };
/// let vectors = [0, 2, 4, 6].map(|x| MotionVector { x, y: 0 });
/// let place = Place { column: 0, row: 0 };
/// let mut out = Predicted::new();
/// predict_macroblock_4mv(&reference, Mode::HALF, &vectors, place, 0, out.areas())?;
/// assert_eq!((out.y[0], out.y[8], out.y[128], out.y[136]), (0, 72, 16, 88));
/// assert_eq!(out.cb[..2], [4, 12]);
///
/// let narrow = ReferencePlanes { chroma_stride: 15, ..reference };
/// let refused = predict_macroblock_4mv(&narrow, Mode::HALF, &vectors, place, 0, out.areas());
/// assert_eq!(refused, Err(Refusal::ReferenceSize));
/// # Ok::<(), Refusal>(())
/// ```
pub fn predict_macroblock_4mv(
    reference: &ReferencePlanes,
    mode: Mode,
    vectors: &[MotionVector; 4],
    place: Place,
    rounding: u8,
    out: PredictionAreas,
) -> Result<(), Refusal> {
    let ReferencePlanes { luma, cb, cr, chroma_stride } = *reference;
    let Reference { samples, width, height, stride } = luma;
    let parts = &parts_of(vectors);
    done(raw::predict_macroblock_4mv(
        samples, cb, cr, width, height, stride, chroma_stride, mode.mode, mode.bits_per_pixel,
        parts, place.column, place.row, rounding, out.y, out.cb, out.cr,
    ))
}
