//! One call of either interpolation: its arguments, and how each side is asked.

use crate::ask::{self, Block, Reference};
use crate::half_sample::{self, ReferenceVop};
use crate::quarter_sample;
use std::fmt;

/// Which of the two functions, without the arguments.
#[derive(Clone, Copy, PartialEq)]
pub enum Function {
    Half,
    Quarter,
}

impl Function {
    pub fn name(self) -> &'static str {
        match self {
            Function::Half => "interpolate_block_into",
            Function::Quarter => "interpolate_block_qpel_into",
        }
    }

    /// The number of the mode that predicts by it.
    pub fn mode(self) -> u32 {
        match self {
            Function::Half => 0,
            Function::Quarter => 1,
        }
    }

    /// A vector's units in one sample.
    pub fn units(self) -> i32 {
        match self {
            Function::Half => 2,
            Function::Quarter => 4,
        }
    }
}

#[derive(Clone, Copy)]
pub struct Call<'a> {
    pub function: Function,
    pub reference: Reference<'a>,
    pub block: Block,
    /// Handed to the quarter-sample function only.
    pub bits_per_pixel: u32,
    pub out_len: usize,
}

impl<'a> Call<'a> {
    pub fn ask_library(&self, out: &mut [u8]) -> u8 {
        match self.function {
            Function::Half => ask::interpolate_block_into(&self.reference, &self.block, out),
            Function::Quarter => ask::interpolate_block_qpel_into(
                &self.reference,
                &self.block,
                self.bits_per_pixel,
                out,
            ),
        }
    }

    /// The reference as the original takes it, for a call with nothing wrong.
    pub fn vop(&self) -> ReferenceVop<'a> {
        let Reference { samples, width, height, stride } = self.reference;
        ReferenceVop::with_stride(samples, width, height, stride)
            .expect("the original takes every reference within the bounds")
    }

    /// The original's answer, for a call with nothing wrong: outside the bounds it may panic.
    pub fn ask_original(&self) -> Vec<u8> {
        let vop = self.vop();
        let Block { mv_x, mv_y, origin_x, origin_y, block_w, block_h, rounding } = self.block;
        match self.function {
            Function::Half => half_sample::interpolate_block(
                &vop, mv_x, mv_y, origin_x, origin_y, block_w, block_h, rounding,
            ),
            Function::Quarter => quarter_sample::interpolate_block_qpel(
                &vop,
                mv_x,
                mv_y,
                origin_x,
                origin_y,
                block_w,
                block_h,
                rounding,
                self.bits_per_pixel,
            ),
        }
    }

    /// The vector's fractions, horizontal and vertical.
    pub fn fractions(&self) -> (usize, usize) {
        let units = self.function.units();
        let fraction = |mv: i32| mv.rem_euclid(units) as usize;
        (fraction(self.block.mv_x), fraction(self.block.mv_y))
    }

    /// The whole sample that the block's first sample starts from.
    pub fn start(&self) -> (i32, i32) {
        let units = self.function.units();
        let whole = |origin: i32, mv: i32| origin + mv.div_euclid(units);
        (whole(self.block.origin_x, self.block.mv_x), whole(self.block.origin_y, self.block.mv_y))
    }
}

/// All arguments but the samples themselves.
impl fmt::Display for Call<'_> {
    fn fmt(&self, f: &mut fmt::Formatter) -> fmt::Result {
        let (r, b) = (&self.reference, &self.block);
        writeln!(f, "function: {}", self.function.name())?;
        writeln!(f, "samples_len: {}", r.samples.len())?;
        writeln!(f, "width: {}, height: {}, stride: {}", r.width, r.height, r.stride)?;
        writeln!(f, "mv_x: {}, mv_y: {}", b.mv_x, b.mv_y)?;
        writeln!(f, "origin_x: {}, origin_y: {}", b.origin_x, b.origin_y)?;
        writeln!(f, "block_w: {}, block_h: {}", b.block_w, b.block_h)?;
        writeln!(f, "rounding: {}", b.rounding)?;
        if self.function == Function::Quarter {
            writeln!(f, "bits_per_pixel: {}", self.bits_per_pixel)?;
        }
        writeln!(f, "out_len: {}", self.out_len)
    }
}
