//! The arguments of the entries for one macroblock, and of a run's steps.

use super::{Search, Source};
use hencouch::{raw, Areas, Prediction, Reference, ReferencePlanes};

/// A macroblock of a source picture, whose chroma sides are half the luma's, rounded up.
#[derive(Clone, Copy)]
pub struct Macroblock<'a> {
    pub source: Source<'a>,
    pub cb: &'a [u8],
    pub cr: &'a [u8],
    pub column: usize,
    pub row: usize,
    pub prediction: Prediction<'a>,
}

/// How coefficients become levels and events. Any `first_method` but 0 is the first method.
#[derive(Clone, Copy, Debug)]
pub struct Quantising<'a> {
    pub quantiser: u32,
    pub first_method: u8,
    pub weights: &'a [u8],
    pub scan: u32,
}

/// All that the entries which search and code are told; luma stands in `search`. Those that make the
/// prediction are not handed `prediction`.
#[derive(Clone, Copy)]
pub struct Coding<'a> {
    pub search: Search<'a>,
    /// 1 or 4.
    pub vectors: u32,
    pub cb: &'a [u8],
    pub cr: &'a [u8],
    pub prediction: Prediction<'a>,
    pub quantising: Quantising<'a>,
}

impl<'a> Coding<'a> {
    pub fn macroblock(&self) -> Macroblock<'a> {
        let Coding { search, cb, cr, prediction, .. } = *self;
        let Search { source, column, row, .. } = search;
        Macroblock { source, cb, cr, column, row, prediction }
    }
}

/// What the entries that make the prediction are told beside a coding: the reference's chroma planes
/// and the rounding type.
#[derive(Clone, Copy)]
pub struct Making<'a> {
    pub cb: &'a [u8],
    pub cr: &'a [u8],
    pub chroma_stride: usize,
    pub rounding: u8,
}

impl<'a> Making<'a> {
    /// The planes beside luma.
    pub fn reference(&self, luma: Reference<'a>) -> ReferencePlanes<'a> {
        let Making { cb, cr, chroma_stride, .. } = *self;
        ReferencePlanes { luma, cb, cr, chroma_stride }
    }
}

/// Areas lent for a macroblock's record: vectors horizontal first, patterns luma first.
pub struct Record<'a> {
    pub vector: &'a mut [i32; 2],
    pub sum: &'a mut u32,
    pub four_vectors: &'a mut [i32; 8],
    pub four_sums: &'a mut [u32; 4],
    pub patterns: &'a mut [u8; 2],
    pub counts: &'a mut [u8; 6],
}

/// Width, height, macroblocks given, their events, their one-vector sums. Nothing checks them.
pub type Run = [u64; 5];

/// How far a macroblock's luma lies from its mean.
pub fn intra_activity(source: &Source, column: usize, row: usize, activity: &mut u32) -> u8 {
    let Source { samples, width, height } = *source;
    raw::intra_activity(samples, width, height, column, row, activity)
}

/// Source less prediction, six blocks of 64.
pub fn macroblock_residual(m: &Macroblock, out: &mut [i32]) -> u8 {
    let Source { samples, width, height } = m.source;
    let p = &m.prediction;
    raw::macroblock_residual(
        samples, m.cb, m.cr, width, height, m.column, m.row, p.y, p.cb, p.cr, out,
    )
}

/// The events of a residual of 64, and their count.
pub fn quantise_inter_block(residual: &[i32], q: &Quantising, out: Areas, count: &mut u8) -> u8 {
    let Quantising { quantiser, first_method, weights, scan } = *q;
    let Areas { lasts, runs, levels } = out;
    raw::quantise_inter_block(
        residual,
        quantiser,
        first_method,
        weights,
        scan,
        lasts,
        runs,
        levels,
        count,
    )
}

/// The events of six residuals of 64, and their counts.
pub fn quantise_inter_residual(
    residual: &[i32],
    q: &Quantising,
    out: Areas,
    counts: &mut [u8; 6],
) -> u8 {
    let Quantising { quantiser, first_method, weights, scan } = *q;
    let Areas { lasts, runs, levels } = out;
    raw::quantise_inter_residual(
        residual,
        quantiser,
        first_method,
        weights,
        scan,
        lasts,
        runs,
        levels,
        counts,
    )
}

/// Searches for a macroblock and codes it against the prediction.
pub fn code_macroblock(c: &Coding, out: Areas, record: Record) -> u8 {
    let Search { source, column, row, reference, mode, bits_per_pixel, fcode } = c.search;
    let Quantising { quantiser, first_method, weights, scan } = c.quantising;
    raw::code_macroblock(
        fcode,
        mode,
        bits_per_pixel,
        quantiser,
        first_method,
        c.vectors,
        scan,
        reference.samples,
        reference.width,
        reference.height,
        reference.stride,
        source.samples,
        c.cb,
        c.cr,
        source.width,
        source.height,
        column,
        row,
        weights,
        c.prediction.y,
        c.prediction.cb,
        c.prediction.cr,
        out.lasts,
        out.runs,
        out.levels,
        record.vector,
        record.sum,
        record.four_vectors,
        record.four_sums,
        record.patterns,
        record.counts,
    )
}

/// Searches for the run's next macroblock and codes it: the place is the run's, not `c`'s.
pub fn step(run: &mut Run, c: &Coding, out: Areas, record: Record) -> u8 {
    let Search { source, reference, mode, bits_per_pixel, fcode, .. } = c.search;
    let Quantising { quantiser, first_method, weights, scan } = c.quantising;
    raw::step(
        run,
        fcode,
        mode,
        bits_per_pixel,
        quantiser,
        first_method,
        c.vectors,
        scan,
        reference.samples,
        reference.width,
        reference.height,
        reference.stride,
        source.samples,
        c.cb,
        c.cr,
        source.width,
        source.height,
        weights,
        c.prediction.y,
        c.prediction.cb,
        c.prediction.cr,
        out.lasts,
        out.runs,
        out.levels,
        record.vector,
        record.sum,
        record.four_vectors,
        record.four_sums,
        record.patterns,
        record.counts,
    )
}

/// Searches for a macroblock, predicts it and codes it.
pub fn code_predicted_macroblock(c: &Coding, m: &Making, out: Areas, record: Record) -> u8 {
    let Search { source, column, row, reference, mode, bits_per_pixel, fcode } = c.search;
    let Quantising { quantiser, first_method, weights, scan } = c.quantising;
    raw::code_predicted_macroblock(
        fcode,
        mode,
        bits_per_pixel,
        quantiser,
        first_method,
        c.vectors,
        scan,
        m.rounding,
        reference.samples,
        m.cb,
        m.cr,
        reference.width,
        reference.height,
        reference.stride,
        m.chroma_stride,
        source.samples,
        c.cb,
        c.cr,
        source.width,
        source.height,
        column,
        row,
        weights,
        out.lasts,
        out.runs,
        out.levels,
        record.vector,
        record.sum,
        record.four_vectors,
        record.four_sums,
        record.patterns,
        record.counts,
    )
}

/// The same for the run's next macroblock: the place is the run's, not `c`'s.
pub fn step_predicted(run: &mut Run, c: &Coding, m: &Making, out: Areas, record: Record) -> u8 {
    let Search { source, reference, mode, bits_per_pixel, fcode, .. } = c.search;
    let Quantising { quantiser, first_method, weights, scan } = c.quantising;
    raw::step_predicted(
        run,
        fcode,
        mode,
        bits_per_pixel,
        quantiser,
        first_method,
        c.vectors,
        scan,
        m.rounding,
        reference.samples,
        m.cb,
        m.cr,
        reference.width,
        reference.height,
        reference.stride,
        m.chroma_stride,
        source.samples,
        c.cb,
        c.cr,
        source.width,
        source.height,
        weights,
        out.lasts,
        out.runs,
        out.levels,
        record.vector,
        record.sum,
        record.four_vectors,
        record.four_sums,
        record.patterns,
        record.counts,
    )
}
