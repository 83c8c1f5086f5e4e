//! The original's sums at the places of one macroblock or block, each taken once.

use crate::motion::MotionVector;
use crate::pvop_encode::{Part, Place};
use crate::pvop_mv::{predict_luma_macroblock, PvopMbMotion};
use std::collections::HashMap;

type Table = HashMap<(i32, i32), u32>;

pub struct Sums<'a> {
    place: &'a Place<'a>,
    part: Part,
    whole: Table,
    vectors: Table,
}

impl<'a> Sums<'a> {
    pub fn new(place: &'a Place<'a>, part: Part) -> Self {
        Sums { place, part, whole: Table::new(), vectors: Table::new() }
    }

    /// At a whole-sample place.
    pub fn whole(&mut self, at: (i32, i32)) -> u32 {
        let (place, part) = (self.place, self.part);
        *self.whole.entry(at).or_insert_with(|| place.full_sum(part, at.0, at.1))
    }

    /// Of a vector.
    pub fn vector(&mut self, at: (i32, i32)) -> u32 {
        let (place, part) = (self.place, self.part);
        let vector = MotionVector { x: at.0, y: at.1 };
        *self.vectors.entry(at).or_insert_with(|| place.vector_sum(part, vector))
    }

    /// Of a vector, the block being cut from the prediction of the whole macroblock.
    pub fn by_large_copy(&mut self, at: (i32, i32)) -> u32 {
        let Place { samples, reference, x, y, mode, .. } = self.place;
        let motion = PvopMbMotion::OneMv(MotionVector { x: at.0, y: at.1 });
        let predicted = predict_luma_macroblock(motion, reference, *x, *y, 0, *mode);
        let predicted = predicted.expect("one vector always gives a prediction");
        let places = (0..256).filter(|k| match self.part {
            Part::Whole => true,
            Part::Block(i) => k / 128 == i / 2 && k % 16 / 8 == i % 2,
        });
        let apart = |k: usize| samples[k / 16][k % 16].abs_diff(i32::from(predicted[k]));
        places.map(apart).sum()
    }
}
