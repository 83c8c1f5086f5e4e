//! A macroblock with all that the original search is told of it.

use super::{
    estimate_motion, estimate_motion_4mv, full_pel_window, mv_range, sad_full_pel,
    sad_full_pel_block8, sad_subpel, sad_subpel_block8, source_luma_mb, units_per_pel,
    BVopSampleMode, FrameView, MotionVector,
};
use crate::ask::{Reference, Search, Source};
use crate::half_sample::ReferenceVop;

/// What a sum is taken over: the macroblock, or one of its four blocks.
#[derive(Clone, Copy, PartialEq)]
pub enum Part {
    Whole,
    Block(usize),
}

pub struct Place<'a> {
    pub samples: [[i32; 16]; 16],
    pub reference: ReferenceVop<'a>,
    pub x: i32,
    pub y: i32,
    pub mode: BVopSampleMode,
    fcode: u8,
}

impl<'a> Place<'a> {
    /// Of a search with nothing wrong.
    pub fn new(search: &Search<'a>) -> Place<'a> {
        let Reference { samples, width, height, stride } = search.reference;
        let reference = ReferenceVop::with_stride(samples, width, height, stride)
            .expect("the original takes every reference within the bounds");
        Place {
            samples: source_luma_mb(&luma_view(&search.source), search.row, search.column),
            reference,
            x: 16 * search.column as i32,
            y: 16 * search.row as i32,
            mode: BVopSampleMode::of(search.mode, search.bits_per_pixel),
            fcode: search.fcode as u8,
        }
    }

    /// The original's one vector and its sum.
    pub fn one(&self) -> (MotionVector, u32) {
        let Place { samples, reference, x, y, mode, fcode } = self;
        estimate_motion(samples, reference, *x, *y, *mode, *fcode)
    }

    /// The original's four vectors and the total of their sums.
    pub fn four(&self, seed: MotionVector) -> ([MotionVector; 4], u32) {
        let Place { samples, reference, x, y, mode, fcode } = self;
        estimate_motion_4mv(samples, reference, *x, *y, seed, *mode, *fcode)
    }

    /// The original's sum at a whole-sample place.
    pub fn full_sum(&self, part: Part, dx: i32, dy: i32) -> u32 {
        let (src, vop) = (&self.samples, &self.reference);
        match part {
            Part::Whole => sad_full_pel(src, vop, self.x, self.y, dx, dy),
            Part::Block(i) => sad_full_pel_block8(src, vop, self.x, self.y, i, dx, dy),
        }
    }

    /// The original's sum of a vector.
    pub fn vector_sum(&self, part: Part, mv: MotionVector) -> u32 {
        let (src, vop) = (&self.samples, &self.reference);
        match part {
            Part::Whole => sad_subpel(src, vop, self.x, self.y, mv, self.mode),
            Part::Block(i) => sad_subpel_block8(src, vop, self.x, self.y, i, mv, self.mode),
        }
    }

    /// A vector's least and greatest part.
    pub fn range(&self) -> (i32, i32) {
        mv_range(self.fcode)
    }

    /// How many samples a whole-sample place may lie away.
    pub fn window(&self) -> i32 {
        full_pel_window(self.fcode, self.mode)
    }

    /// A vector's units in one sample.
    pub fn units(&self) -> i32 {
        units_per_pel(self.mode)
    }
}

/// The source as the original's picture. Of its planes only the luma is looked at.
pub fn luma_view<'a>(source: &Source<'a>) -> FrameView<'a> {
    let Source { samples, width, height } = *source;
    FrameView { y: samples, cb: &[], cr: &[], width, height }
}
