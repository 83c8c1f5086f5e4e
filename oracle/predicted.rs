//! The 384 samples that vectors predict a macroblock by, of the originals' interpolations: luma in
//! its mode, chroma by half samples at the chroma vector. For one vector that is the original's; for
//! four none of the original files has it, and it is written out here, from the rule's words.

use crate::ask::{chroma_planes, Coding, Making, Prediction, Reference, ReferencePlanes, Search};
use crate::bvop_prediction::BVopSampleMode;
use crate::half_sample::{interpolate_block_into, ReferenceVop};
use crate::motion::MotionVector;
use crate::pvop_encode::Place;
use crate::pvop_mv::{predict_luma_macroblock, PvopMbMotion};
use crate::quarter_sample::reduce_qpel_to_half_pel_chroma;

/// Row by row.
#[derive(Clone, Debug, PartialEq)]
pub struct Samples {
    pub y: [u8; 256],
    pub cb: [u8; 64],
    pub cr: [u8; 64],
}

impl Samples {
    /// As what a macroblock is coded against.
    pub fn lent(&self) -> Prediction<'_> {
        Prediction { y: &self.y, cb: &self.cb, cr: &self.cr }
    }
}

/// A reference's planes as the originals take them.
pub struct Planes<'a> {
    y: ReferenceVop<'a>,
    cb: ReferenceVop<'a>,
    cr: ReferenceVop<'a>,
}

impl<'a> Planes<'a> {
    /// Of a reference with nothing wrong.
    pub fn new(reference: &ReferencePlanes<'a>) -> Self {
        let [cb, cr] = chroma_planes(reference);
        let [y, cb, cr] = [reference.luma, cb, cr].map(|plane| {
            let Reference { samples, width, height, stride } = plane;
            ReferenceVop::with_stride(samples, width, height, stride)
                .expect("the original takes every reference within the bounds")
        });
        Planes { y, cb, cr }
    }

    /// The macroblock at a column and row, at a rounding type.
    pub fn predict(
        &self,
        mode: BVopSampleMode,
        motion: PvopMbMotion,
        (column, row): (usize, usize),
        rounding: u8,
    ) -> Samples {
        let (x, y) = (16 * column as i32, 16 * row as i32);
        let luma = predict_luma_macroblock(motion, &self.y, x, y, rounding, mode);
        let [cb, cr] = self.chroma(chroma_vector(mode, motion), (column, row), rounding);
        Samples { y: luma.expect("vectors always give a prediction"), cb, cr }
    }

    /// Its Cb and Cr at a chroma vector.
    pub fn chroma(
        &self,
        MotionVector { x, y }: MotionVector,
        (column, row): (usize, usize),
        rounding: u8,
    ) -> [[u8; 64]; 2] {
        let (left, top) = (8 * column as i32, 8 * row as i32);
        [&self.cb, &self.cr].map(|plane| {
            let mut block = [0; 64];
            interpolate_block_into(plane, x, y, left, top, 8, 8, rounding, &mut block);
            block
        })
    }
}

/// What a macroblock is predicted from.
#[derive(Clone, Copy)]
pub struct Told<'a> {
    pub reference: ReferencePlanes<'a>,
    pub mode: BVopSampleMode,
    pub motion: PvopMbMotion,
    /// Column, row.
    pub place: (usize, usize),
    pub rounding: u8,
}

impl<'a> Told<'a> {
    /// For a coding with nothing wrong, by the vectors that the original search finds.
    pub fn found(c: &Coding<'a>, making: &Making<'a>) -> Self {
        let search = &c.search;
        Told {
            reference: making.reference(search.reference),
            mode: BVopSampleMode::of(search.mode, search.bits_per_pixel),
            motion: found(search, c.vectors),
            place: (search.column, search.row),
            rounding: making.rounding,
        }
    }

    pub fn predict(&self) -> Samples {
        Planes::new(&self.reference).predict(self.mode, self.motion, self.place, self.rounding)
    }
}

/// What the original search moves a macroblock by: its four vectors where so many are wanted.
pub fn found(search: &Search, vectors: u32) -> PvopMbMotion {
    let place = Place::new(search);
    let (one, _) = place.one();
    match vectors {
        4 => PvopMbMotion::FourMv(place.four(one).0),
        _ => PvopMbMotion::OneMv(one),
    }
}

/// In half samples of chroma.
pub fn chroma_vector(mode: BVopSampleMode, motion: PvopMbMotion) -> MotionVector {
    match motion {
        PvopMbMotion::OneMv(vector) => {
            let part = |part| reduce_qpel_to_half_pel_chroma(in_halves(mode, part));
            MotionVector { x: part(vector.x), y: part(vector.y) }
        }
        PvopMbMotion::FourMv(vectors) => {
            let parts = |of: fn(MotionVector) -> i32| vectors.map(|v| in_halves(mode, of(v)));
            MotionVector { x: of_four(parts(|v| v.x)), y: of_four(parts(|v| v.y)) }
        }
    }
}

/// A luma vector's part in half samples: one in quarter samples is halved toward zero.
fn in_halves(mode: BVopSampleMode, part: i32) -> i32 {
    match mode {
        BVopSampleMode::HalfPel => part,
        BVopSampleMode::QuarterPel { .. } => part / 2,
    }
}

/// What each remainder of a sum over 16 adds, in half samples: 0 to 2 nothing, 3 to 13 a half, 14
/// and 15 a whole.
const ADDED: [i32; 16] = [0, 0, 0, 1, 1, 1, 1, 1, 1, 1, 1, 1, 1, 1, 2, 2];

/// Of four vectors' parts: the size of their sum over 16 is whole samples; the sign returns last.
fn of_four(parts: [i32; 4]) -> i32 {
    let sum: i32 = parts.iter().sum();
    let size = sum.abs();
    sum.signum() * (2 * (size / 16) + ADDED[size as usize % 16])
}
