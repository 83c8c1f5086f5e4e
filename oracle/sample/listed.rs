//! Calls made by hand: each bound on both sides, and the order of the refusals. The replies are
//! written here and not worked out, so that they also test `refusal::reasons`.

use super::call::{Call, Function};
use super::check::check;
use super::refusal;
use crate::ask::{Block, Reference};
use crate::damage::by_hand;
use crate::random::Random;

type Case = (&'static str, u8, fn(&mut Call));

/// Compares all cases of one function and tells how many there are.
pub fn compare(function: Function) -> Result<usize, String> {
    let mut store = vec![0; 1 << 16];
    Random::new(1).fill(&mut store);
    let own = if function == Function::Quarter { QUARTER } else { &[] };
    let lists = [LENGTHS_AND_SIDES, GEOMETRY, SAMPLES, PLACES, ORDER, own];
    let all = lists.iter().copied().flatten().map(|&(name, reply, change)| {
        let mut call = sound(function, &store);
        change(&mut call);
        (name, reply, call)
    });
    by_hand(all, refusal::reasons, |call, reply| check(call, reply, 0xA5))
}

/// A call with nothing wrong: 16 x 16 at the whole sample of a plane of 20 x 10, stride 24, that is
/// much longer than needed.
fn sound(function: Function, samples: &[u8]) -> Call<'_> {
    Call {
        function,
        reference: Reference { samples, width: 20, height: 10, stride: 24 },
        block: Block {
            mv_x: 0,
            mv_y: 0,
            origin_x: 0,
            origin_y: 0,
            block_w: 16,
            block_h: 16,
            rounding: 0,
        },
        bits_per_pixel: 8,
        out_len: 256,
    }
}

fn area(call: &mut Call, block_w: usize, block_h: usize, out_len: usize) {
    (call.block.block_w, call.block.block_h, call.out_len) = (block_w, block_h, out_len);
}

/// 12 compares with the exact product, also for bad sides, and comes before 14.
const LENGTHS_AND_SIDES: &[Case] = &[
    ("8 x 8, 64 bytes", 0, |c| area(c, 8, 8, 64)),
    ("8 x 16, 128 bytes", 0, |c| area(c, 8, 16, 128)),
    ("16 x 8, 128 bytes", 0, |c| area(c, 16, 8, 128)),
    ("16 x 16, 256 bytes", 0, |c| area(c, 16, 16, 256)),
    ("16 x 16, 255 bytes", 12, |c| area(c, 16, 16, 255)),
    ("16 x 16, 257 bytes", 12, |c| area(c, 16, 16, 257)),
    ("8 x 8, 256 bytes", 12, |c| area(c, 8, 8, 256)),
    ("8 x 8, nothing", 12, |c| area(c, 8, 8, 0)),
    ("7 x 7, 64 bytes", 12, |c| area(c, 7, 7, 64)),
    ("7 x 7, 49 bytes", 14, |c| area(c, 7, 7, 49)),
    ("4 x 16, 64 bytes", 14, |c| area(c, 4, 16, 64)),
    ("16 x 4, 64 bytes", 14, |c| area(c, 16, 4, 64)),
    ("32 x 8, 256 bytes", 14, |c| area(c, 32, 8, 256)),
    ("0 x 0, nothing", 14, |c| area(c, 0, 0, 0)),
    ("0 x 8, nothing", 14, |c| area(c, 0, 8, 0)),
    ("0 x 0, 64 bytes", 12, |c| area(c, 0, 0, 64)),
    ("0 x the largest, nothing", 14, |c| area(c, 0, usize::MAX, 0)),
    ("the largest x 0, nothing", 14, |c| area(c, usize::MAX, 0, 0)),
    ("wraps to 0", 12, |c| area(c, 1 << 63, 2, 0)),
    ("wraps to 0, sides swapped", 12, |c| area(c, 2, 1 << 63, 0)),
    ("wraps to 1", 12, |c| area(c, usize::MAX, usize::MAX, 1)),
    ("wraps to 64, one side good", 12, |c| area(c, (1 << 61) + 8, 8, 64)),
    ("wraps to 256, one side good", 12, |c| area(c, 16, (1 << 60) + 16, 256)),
    ("64 in the low 32 bits", 12, |c| area(c, (1 << 32) + 8, 8, 64)),
    ("the largest x 1, 256 bytes", 12, |c| area(c, usize::MAX, 1, 256)),
];

fn geometry(call: &mut Call, width: usize, height: usize, stride: usize) {
    let samples = call.reference.samples;
    call.reference = Reference { samples, width, height, stride };
}

const GEOMETRY: &[Case] = &[
    ("width 0", 4, |c| geometry(c, 0, 10, 24)),
    ("height 0", 4, |c| geometry(c, 20, 0, 24)),
    ("all 0", 4, |c| geometry(c, 0, 0, 0)),
    ("stride 0", 4, |c| geometry(c, 20, 10, 0)),
    ("stride below the width", 4, |c| geometry(c, 20, 10, 19)),
    ("stride is the width", 0, |c| geometry(c, 20, 10, 20)),
    ("width 4096", 0, |c| geometry(c, 4096, 10, 4096)),
    ("width 4097", 4, |c| geometry(c, 4097, 10, 4097)),
    ("height 4096", 0, |c| geometry(c, 10, 4096, 10)),
    ("height 4097", 4, |c| geometry(c, 10, 4097, 10)),
    ("stride 8192", 0, |c| geometry(c, 20, 5, 8192)),
    ("stride 8193", 4, |c| geometry(c, 20, 5, 8193)),
    ("the largest width and stride", 4, |c| geometry(c, usize::MAX, 1, usize::MAX)),
    ("the largest height", 4, |c| geometry(c, 1, usize::MAX, 1)),
    ("the largest stride", 4, |c| geometry(c, 20, 1, usize::MAX)),
    ("20 in the low 32 bits of the width", 4, |c| geometry(c, (1 << 32) + 20, 1, 24)),
];

fn cut(call: &mut Call, len: usize) {
    call.reference.samples = &call.reference.samples[..len];
}

/// The last sample of the plane is number 9 * 24 + 19 = 235.
const SAMPLES: &[Case] = &[
    ("no samples", 5, |c| cut(c, 0)),
    ("one sample too few", 5, |c| cut(c, 235)),
    ("just enough samples", 0, |c| cut(c, 236)),
    ("one by one, no sample", 5, |c| {
        geometry(c, 1, 1, 1);
        cut(c, 0)
    }),
    ("one by one, one sample", 0, |c| {
        geometry(c, 1, 1, 1);
        cut(c, 1)
    }),
    ("one row, the stride beyond the samples", 0, |c| {
        geometry(c, 20, 1, 8192);
        cut(c, 20)
    }),
    ("wide stride, one sample too few", 5, |c| {
        geometry(c, 20, 5, 8192);
        cut(c, 4 * 8192 + 19)
    }),
];

const PLACES: &[Case] = &[
    ("origin_x -4096", 0, |c| c.block.origin_x = -4096),
    ("origin_x -4097", 8, |c| c.block.origin_x = -4097),
    ("origin_x 4096", 0, |c| c.block.origin_x = 4096),
    ("origin_x 4097", 8, |c| c.block.origin_x = 4097),
    ("origin_y -4096", 0, |c| c.block.origin_y = -4096),
    ("origin_y -4097", 8, |c| c.block.origin_y = -4097),
    ("origin_y 4096", 0, |c| c.block.origin_y = 4096),
    ("origin_y 4097", 8, |c| c.block.origin_y = 4097),
    ("mv_x -2048", 0, |c| c.block.mv_x = -2048),
    ("mv_x -2049", 8, |c| c.block.mv_x = -2049),
    ("mv_x 2047", 0, |c| c.block.mv_x = 2047),
    ("mv_x 2048", 8, |c| c.block.mv_x = 2048),
    ("mv_y -2048", 0, |c| c.block.mv_y = -2048),
    ("mv_y -2049", 8, |c| c.block.mv_y = -2049),
    ("mv_y 2047", 0, |c| c.block.mv_y = 2047),
    ("mv_y 2048", 8, |c| c.block.mv_y = 2048),
    ("the least origin and vector", 8, |c| (c.block.origin_x, c.block.mv_x) = (i32::MIN, i32::MIN)),
    ("the greatest origin and vector", 8, |c| {
        (c.block.origin_y, c.block.mv_y) = (i32::MAX, i32::MAX)
    }),
    ("a vector of -1", 0, |c| (c.block.mv_x, c.block.mv_y) = (-1, -1)),
    ("a vector of -2", 0, |c| (c.block.mv_x, c.block.mv_y) = (-2, -2)),
    ("a vector of -5", 0, |c| (c.block.mv_x, c.block.mv_y) = (-5, -5)),
    ("rounding 2 counts as 0", 0, |c| (c.block.mv_x, c.block.rounding) = (1, 2)),
    ("rounding 255 counts as 1", 0, |c| (c.block.mv_x, c.block.rounding) = (1, 255)),
];

/// Everything wrong from one number of the list on, nothing before it.
fn wrong_from(call: &mut Call, number: u8) {
    area(call, 7, 7, 49);
    if number <= 12 {
        call.out_len = 64;
    }
    if number <= 8 {
        (call.block.origin_x, call.block.mv_y) = (4097, -2049);
    }
    if number <= 5 {
        cut(call, 235);
    }
    if number <= 4 {
        call.reference.stride = 8193;
    }
    if number <= 3 {
        call.bits_per_pixel = 9;
    }
}

const ORDER: &[Case] = &[
    ("everything from 4 on", 4, |c| wrong_from(c, 4)),
    ("everything from 5 on", 5, |c| wrong_from(c, 5)),
    ("everything from 8 on", 8, |c| wrong_from(c, 8)),
    ("everything from 12 on", 12, |c| wrong_from(c, 12)),
    ("the sides alone", 14, |c| wrong_from(c, 14)),
];

const QUARTER: &[Case] = &[
    ("everything from 3 on", 3, |c| wrong_from(c, 3)),
    ("0 bits per pixel", 3, |c| c.bits_per_pixel = 0),
    ("1 bit per pixel", 0, |c| (c.bits_per_pixel, c.block.mv_x) = (1, 2)),
    ("1 bit per pixel, a whole place stays unclipped", 0, |c| c.bits_per_pixel = 1),
    ("8 bits per pixel", 0, |c| (c.bits_per_pixel, c.block.mv_x) = (8, 2)),
    ("9 bits per pixel", 3, |c| c.bits_per_pixel = 9),
    ("8 in the low byte of the bits", 3, |c| c.bits_per_pixel = 256 + 8),
    ("the most bits per pixel", 3, |c| c.bits_per_pixel = u32::MAX),
];
