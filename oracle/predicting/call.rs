//! One call of the entries that predict a macroblock: its arguments, and both sides' answers.

use super::Count;
use crate::ask::{self, Predicting, ReferencePlanes};
use crate::bvop_prediction::BVopSampleMode;
use crate::damage::planes;
use crate::guard::{held, Lent};
use crate::macroblock::lent::named;
use crate::predicted::{Samples, Told};
use std::fmt;

#[derive(Clone, Copy)]
pub struct Call<'a> {
    pub count: Count,
    pub reference: ReferencePlanes<'a>,
    pub mode: u32,
    pub bits_per_pixel: u32,
    /// Of one vector the first two parts count.
    pub parts: [i32; 8],
    pub column: usize,
    pub row: usize,
    pub rounding: u8,
    /// Of the areas for luma, Cb and Cr.
    pub lens: [usize; 3],
}

impl<'a> Call<'a> {
    fn ask_library(&self, y: &mut [u8], cb: &mut [u8], cr: &mut [u8]) -> u8 {
        let Call { reference, mode, bits_per_pixel, column, row, rounding, parts, .. } = *self;
        let predicting = Predicting { reference, mode, bits_per_pixel, column, row, rounding };
        match self.count {
            Count::One => ask::predict_macroblock(&predicting, [parts[0], parts[1]], [y, cb, cr]),
            Count::Four => ask::predict_macroblock_4mv(&predicting, &parts, [y, cb, cr]),
        }
    }

    /// What a call with nothing wrong predicts from.
    pub fn told(&self) -> Told<'a> {
        Told {
            reference: self.reference,
            mode: BVopSampleMode::of(self.mode, self.bits_per_pixel),
            motion: self.count.motion(&self.parts),
            place: (self.column, self.row),
            rounding: self.rounding,
        }
    }

    /// Holds the library to `reply`; the originals' answer, for a call with nothing wrong.
    pub fn check(&self, reply: u8, salt: u8) -> Result<Option<Samples>, String> {
        let [mut y, mut cb, mut cr] = [0, 1, 2].map(|k| {
            let salt = salt.wrapping_mul(2 * k as u8 + 1);
            Lent::<u8>::new(self.lens[k], salt)
        });
        let got = self.ask_library(y.area(), cb.area(), cr.area());
        let wanted = (reply == 0).then(|| self.told().predict());
        let none: (&[u8], &[u8], &[u8]) = (&[], &[], &[]);
        let samples = wanted.as_ref().map_or(none, |s| (&s.y, &s.cb, &s.cr));
        named("y", held(&y, got, reply, samples.0))
            .and_then(|()| named("cb", held(&cb, got, reply, samples.1)))
            .and_then(|()| named("cr", held(&cr, got, reply, samples.2)))
            .map_err(|text| format!("MISMATCH: {text}\n{self}{}", planes::text(&self.reference)))?;
        Ok(wanted)
    }
}

/// All arguments but the samples themselves.
impl fmt::Display for Call<'_> {
    fn fmt(&self, f: &mut fmt::Formatter) -> fmt::Result {
        let (r, luma) = (&self.reference, &self.reference.luma);
        let lens = [luma.samples.len(), r.cb.len(), r.cr.len()];
        writeln!(f, "vectors: {:?}, {:?}", self.count, self.parts)?;
        writeln!(f, "width: {}, height: {}, stride: {}", luma.width, luma.height, luma.stride)?;
        writeln!(f, "chroma_stride: {}, lengths of planes: {lens:?}", r.chroma_stride)?;
        writeln!(f, "mode: {}, bits_per_pixel: {}", self.mode, self.bits_per_pixel)?;
        writeln!(f, "column: {}, row: {}, rounding: {}", self.column, self.row, self.rounding)?;
        writeln!(f, "lengths of areas: {:?}", self.lens)
    }
}
