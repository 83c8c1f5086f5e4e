//! Samples of a reference, interpolation, prediction.

use crate::calls::{lent, Calls, Number};
use hencouch::{raw, Block, HalfPel, Mode, MotionVector, Point, QuarterPel, Reference};

/// The arguments of a reference, which owns its samples.
pub struct Plane {
    pub samples: Vec<u8>,
    pub width: usize,
    pub height: usize,
    pub stride: usize,
}

impl Plane {
    pub fn read(c: &mut Calls) -> Plane {
        let samples = c.area();
        Plane { samples, width: c.number(), height: c.number(), stride: c.number() }
    }

    pub fn reference(&self) -> Reference<'_> {
        let Plane { samples, width, height, stride } = self;
        Reference { samples, width: *width, height: *height, stride: *stride }
    }
}

pub fn vector(c: &mut Calls) -> MotionVector {
    MotionVector { x: c.number(), y: c.number() }
}

fn point(c: &mut Calls) -> Point {
    Point { x: c.number(), y: c.number() }
}

pub fn mode(c: &mut Calls) -> Mode {
    Mode { mode: c.number(), bits_per_pixel: c.number() }
}

fn block(c: &mut Calls) -> Block {
    let (vector, origin) = (vector(c), point(c));
    Block { vector, origin, block_w: c.number(), block_h: c.number(), rounding: c.number() }
}

pub fn interpolate_block_into(c: &mut Calls) {
    let (p, b) = (Plane::read(c), block(c));
    let length = c.length();
    let wanted = c.after(length);
    let mut out = lent(length);
    c.replied(raw::interpolate_block_into(
        &p.samples, p.width, p.height, p.stride, b.vector.x, b.vector.y, b.origin.x, b.origin.y,
        b.block_w, b.block_h, b.rounding, &mut out,
    ));
    c.same("out", &out, &wanted);
    let mut out = lent(length);
    c.answered(hencouch::interpolate_block_into(&p.reference(), &b, &mut out), ());
    c.same("out", &out, &wanted);
}

pub fn interpolate_block_qpel_into(c: &mut Calls) {
    let (p, b) = (Plane::read(c), block(c));
    let bits = c.number();
    let length = c.length();
    let wanted = c.after(length);
    let mut out = lent(length);
    c.replied(raw::interpolate_block_qpel_into(
        &p.samples, p.width, p.height, p.stride, b.vector.x, b.vector.y, b.origin.x, b.origin.y,
        b.block_w, b.block_h, b.rounding, bits, &mut out,
    ));
    c.same("out", &out, &wanted);
    let mut out = lent(length);
    c.answered(hencouch::interpolate_block_qpel_into(&p.reference(), &b, bits, &mut out), ());
    c.same("out", &out, &wanted);
}

pub fn interpolate_pixel(c: &mut Calls) {
    let around: [u8; 4] = [(); 4].map(|()| c.number());
    let (half_x, half_y, rounding): (u8, u8, u8) = (c.number(), c.number(), c.number());
    let [wanted] = c.array_after([u8::BEFORE]);
    let [a, b, down, both] = around;
    let mut sample = u8::BEFORE;
    c.replied(raw::interpolate_pixel(a, b, down, both, half_x, half_y, rounding, &mut sample));
    c.same("sample", &sample, &wanted);
    let sample = hencouch::interpolate_pixel(around, half_x != 0, half_y != 0, rounding);
    c.answered(Ok(sample), wanted);
}

pub fn split_half_pel(c: &mut Calls) {
    let mv = c.number();
    let ([whole], [half]) = (c.array_after([i32::BEFORE]), c.array_after([u8::BEFORE]));
    let (mut got_whole, mut got_half) = (i32::BEFORE, u8::BEFORE);
    c.replied(raw::split_half_pel(mv, &mut got_whole, &mut got_half));
    c.same("parts", &(got_whole, got_half), &(whole, half));
    c.answered(Ok(hencouch::split_half_pel(mv)), HalfPel { whole, half: half != 0 });
}

pub fn split_quarter_pel(c: &mut Calls) {
    let mv = c.number();
    let ([whole], [fraction]) = (c.array_after([i32::BEFORE]), c.array_after([u8::BEFORE]));
    let (mut got_whole, mut got_fraction) = (i32::BEFORE, u8::BEFORE);
    c.replied(raw::split_quarter_pel(mv, &mut got_whole, &mut got_fraction));
    c.same("parts", &(got_whole, got_fraction), &(whole, fraction));
    c.answered(Ok(hencouch::split_quarter_pel(mv)), QuarterPel { whole, fraction });
}

pub fn fetch_clamped(c: &mut Calls) {
    let (p, at) = (Plane::read(c), point(c));
    let [wanted] = c.array_after([u8::BEFORE]);
    let mut sample = u8::BEFORE;
    let Plane { samples, width, height, stride } = &p;
    c.replied(raw::fetch_clamped(samples, *width, *height, *stride, at.x, at.y, &mut sample));
    c.same("sample", &sample, &wanted);
    c.answered(hencouch::fetch_clamped(&p.reference(), at), wanted);
}

pub fn copy_block(c: &mut Calls) {
    let (p, at) = (Plane::read(c), point(c));
    let (block_w, block_h) = (c.number(), c.number());
    let length = c.length();
    let wanted = c.after(length);
    let mut out = lent(length);
    c.replied(raw::copy_block(
        &p.samples, p.width, p.height, p.stride, at.x, at.y, block_w, block_h, &mut out,
    ));
    c.same("out", &out, &wanted);
    let mut out = lent(length);
    c.answered(hencouch::copy_block(&p.reference(), at, block_w, block_h, &mut out), ());
    c.same("out", &out, &wanted);
}

pub fn predict_luma_block(c: &mut Calls) {
    let (p, m, b) = (Plane::read(c), mode(c), block(c));
    let length = c.length();
    let wanted = c.after(length);
    let mut out = lent(length);
    c.replied(raw::predict_luma_block(
        &p.samples, p.width, p.height, p.stride, m.mode, m.bits_per_pixel, b.vector.x, b.vector.y,
        b.origin.x, b.origin.y, b.block_w, b.block_h, b.rounding, &mut out,
    ));
    c.same("out", &out, &wanted);
    let mut out = lent(length);
    c.answered(hencouch::predict_luma_block(&p.reference(), m, &b, &mut out), ());
    c.same("out", &out, &wanted);
}

pub fn predict_luma_macroblock(c: &mut Calls) {
    let (p, m, v, o) = (Plane::read(c), mode(c), vector(c), point(c));
    let rounding = c.number();
    let length = c.length();
    let wanted = c.after(length);
    let mut out = lent(length);
    c.replied(raw::predict_luma_macroblock(
        &p.samples, p.width, p.height, p.stride, m.mode, m.bits_per_pixel, v.x, v.y, o.x, o.y,
        rounding, &mut out,
    ));
    c.same("out", &out, &wanted);
    let mut out = lent(length);
    let plane = p.reference();
    c.answered(hencouch::predict_luma_macroblock(&plane, m, v, o, rounding, &mut out), ());
    c.same("out", &out, &wanted);
}

pub fn predict_luma_macroblock_4mv(c: &mut Calls) {
    let (p, m) = (Plane::read(c), mode(c));
    let parts: [i32; 8] = c.array();
    let o = point(c);
    let rounding = c.number();
    let length = c.length();
    let wanted = c.after(length);
    let mut out = lent(length);
    c.replied(raw::predict_luma_macroblock_4mv(
        &p.samples, p.width, p.height, p.stride, m.mode, m.bits_per_pixel, &parts, o.x, o.y,
        rounding, &mut out,
    ));
    c.same("out", &out, &wanted);
    let mut out = lent(length);
    let (plane, vectors) = (p.reference(), vectors_of(parts));
    let got = hencouch::predict_luma_macroblock_4mv(&plane, m, &vectors, o, rounding, &mut out);
    c.answered(got, ());
    c.same("out", &out, &wanted);
}

/// Each vector's horizontal, then vertical.
pub fn vectors_of(parts: [i32; 8]) -> [MotionVector; 4] {
    [0, 2, 4, 6].map(|k| MotionVector { x: parts[k], y: parts[k + 1] })
}
