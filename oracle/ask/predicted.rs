//! The arguments of the entries that predict a macroblock's three planes.

use hencouch::{raw, Reference, ReferencePlanes};

/// What a macroblock is predicted from, but for its vectors.
#[derive(Clone, Copy)]
pub struct Predicting<'a> {
    pub reference: ReferencePlanes<'a>,
    pub mode: u32,
    pub bits_per_pixel: u32,
    pub column: usize,
    pub row: usize,
    pub rounding: u8,
}

/// Luma, Cb and Cr by one vector, horizontal first.
pub fn predict_macroblock(p: &Predicting, [x, y]: [i32; 2], out: [&mut [u8]; 3]) -> u8 {
    let ReferencePlanes { luma, cb, cr, chroma_stride } = p.reference;
    let Reference { samples, width, height, stride } = luma;
    let [out_y, out_cb, out_cr] = out;
    raw::predict_macroblock(
        samples,
        cb,
        cr,
        width,
        height,
        stride,
        chroma_stride,
        p.mode,
        p.bits_per_pixel,
        x,
        y,
        p.column,
        p.row,
        p.rounding,
        out_y,
        out_cb,
        out_cr,
    )
}

/// The same by four, each one's horizontal, then vertical.
pub fn predict_macroblock_4mv(p: &Predicting, vectors: &[i32; 8], out: [&mut [u8]; 3]) -> u8 {
    let ReferencePlanes { luma, cb, cr, chroma_stride } = p.reference;
    let Reference { samples, width, height, stride } = luma;
    let [out_y, out_cb, out_cr] = out;
    raw::predict_macroblock_4mv(
        samples,
        cb,
        cr,
        width,
        height,
        stride,
        chroma_stride,
        p.mode,
        p.bits_per_pixel,
        vectors,
        p.column,
        p.row,
        p.rounding,
        out_y,
        out_cb,
        out_cr,
    )
}
