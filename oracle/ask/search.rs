//! The arguments of the two searches.

use hencouch::{raw, Reference};

/// A source picture's luma, its rows following each other directly.
#[derive(Clone, Copy)]
pub struct Source<'a> {
    pub samples: &'a [u8],
    pub width: usize,
    pub height: usize,
}

/// Where a search looks for what: the macroblock, the reference, the mode (0 half, 1 quarter).
#[derive(Clone, Copy)]
pub struct Search<'a> {
    pub source: Source<'a>,
    pub column: usize,
    pub row: usize,
    pub reference: Reference<'a>,
    pub mode: u32,
    pub bits_per_pixel: u32,
    pub fcode: u32,
}

/// One vector, horizontal and vertical, and its sum.
pub fn estimate_motion(s: &Search, vector: &mut [i32], sum: &mut [u32]) -> u8 {
    let Source { samples, width, height } = s.source;
    let r = &s.reference;
    raw::estimate_motion(
        samples,
        width,
        height,
        s.column,
        s.row,
        r.samples,
        r.width,
        r.height,
        r.stride,
        s.mode,
        s.bits_per_pixel,
        s.fcode,
        vector,
        sum,
    )
}

/// Four vectors near the seed, each one's horizontal and vertical part, and their sums.
pub fn estimate_motion_4mv(
    s: &Search,
    seed: (i32, i32),
    vectors: &mut [i32],
    sums: &mut [u32],
) -> u8 {
    let Source { samples, width, height } = s.source;
    let r = &s.reference;
    raw::estimate_motion_4mv(
        samples,
        width,
        height,
        s.column,
        s.row,
        r.samples,
        r.width,
        r.height,
        r.stride,
        s.mode,
        s.bits_per_pixel,
        s.fcode,
        seed.0,
        seed.1,
        vectors,
        sums,
    )
}
