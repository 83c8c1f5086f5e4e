//! Calls made by hand: each bound on both sides, and the order of the refusals. The replies are
//! written here and not worked out, so that they also test `refusal::reasons`.

use super::call::Call;
use super::{refusal, Count};
use crate::ask::{Reference, ReferencePlanes};
use crate::damage::by_hand;
use crate::random::Random;

type Case = (&'static str, u8, fn(&mut Call));

/// Compares all cases of one entry and tells how many there are.
pub fn compare(count: Count) -> Result<usize, String> {
    let mut store = vec![0; 1 << 16];
    Random::new(1).fill(&mut store);
    let own = if count == Count::One { ONE } else { FOUR };
    let lists = [SIZES, SAMPLES, PLACES, LENGTHS_AND_TYPES, ORDER, own];
    let all = lists.iter().copied().flatten().map(|&(name, reply, change)| {
        let mut call = sound(count, &store);
        change(&mut call);
        (name, reply, call)
    });
    by_hand(all, refusal::reasons, |call, reply| call.check(reply, 0xA5).map(|_| ()))
}

/// A call with nothing wrong: the first macroblock of 20 x 10 luma samples, stride 24, and 10 x 5 of
/// each chroma, stride 12; the planes are much longer than needed.
fn sound(count: Count, samples: &[u8]) -> Call<'_> {
    let luma = Reference { samples, width: 20, height: 10, stride: 24 };
    Call {
        count,
        reference: ReferencePlanes { luma, cb: samples, cr: samples, chroma_stride: 12 },
        mode: 0,
        bits_per_pixel: 8,
        parts: [0; 8],
        column: 0,
        row: 0,
        rounding: 0,
        lens: [256, 64, 64],
    }
}

/// Width, height, stride, chroma stride.
fn sizes(call: &mut Call, [width, height, stride, chroma_stride]: [usize; 4]) {
    let luma = Reference { width, height, stride, ..call.reference.luma };
    call.reference = ReferencePlanes { luma, chroma_stride, ..call.reference };
}

const SIZES: &[Case] = &[
    ("width 0", 4, |c| sizes(c, [0, 10, 24, 12])),
    ("height 0", 4, |c| sizes(c, [20, 0, 24, 12])),
    ("all 0", 4, |c| sizes(c, [0, 0, 0, 0])),
    ("stride is the width", 0, |c| sizes(c, [20, 10, 20, 12])),
    ("stride below the width", 4, |c| sizes(c, [20, 10, 19, 12])),
    ("width 4096", 0, |c| sizes(c, [4096, 10, 4096, 2048])),
    ("width 4097", 4, |c| sizes(c, [4097, 10, 4097, 2049])),
    ("height 4096", 0, |c| sizes(c, [10, 4096, 10, 5])),
    ("height 4097", 4, |c| sizes(c, [10, 4097, 10, 5])),
    ("stride 8192", 0, |c| sizes(c, [20, 5, 8192, 12])),
    ("stride 8193", 4, |c| sizes(c, [20, 5, 8193, 12])),
    ("the largest width and strides", 4, |c| sizes(c, [usize::MAX, 1, usize::MAX, usize::MAX])),
    ("the largest height", 4, |c| sizes(c, [1, usize::MAX, 1, 1])),
    ("chroma stride is its width", 0, |c| sizes(c, [20, 10, 24, 10])),
    ("chroma stride below its width", 4, |c| sizes(c, [20, 10, 24, 9])),
    ("odd width, its half rounded up", 0, |c| sizes(c, [19, 10, 24, 10])),
    ("odd width, its half rounded down", 4, |c| sizes(c, [19, 10, 24, 9])),
    ("one column, chroma stride 1", 0, |c| sizes(c, [1, 10, 24, 1])),
    ("one column, chroma stride 0", 4, |c| sizes(c, [1, 10, 24, 0])),
    ("chroma stride 8192", 0, |c| sizes(c, [20, 10, 24, 8192])),
    ("chroma stride 8193", 4, |c| sizes(c, [20, 10, 24, 8193])),
    ("the largest chroma stride", 4, |c| sizes(c, [20, 10, 24, usize::MAX])),
    ("12 in the low 32 bits of the chroma stride", 4, |c| sizes(c, [20, 10, 24, (1 << 32) + 12])),
];

/// How many samples of luma, Cb and Cr are handed over.
fn cut(call: &mut Call, [y, cb, cr]: [usize; 3]) {
    let r = &mut call.reference;
    (r.luma.samples, r.cb, r.cr) = (&r.luma.samples[..y], &r.cb[..cb], &r.cr[..cr]);
}

/// The last samples are number 9 * 24 + 19 = 235 of luma, 4 * 12 + 9 = 57 of chroma.
const SAMPLES: &[Case] = &[
    ("just enough samples", 0, |c| cut(c, [236, 58, 58])),
    ("luma, one sample too few", 5, |c| cut(c, [235, 58, 58])),
    ("Cb, one sample too few", 5, |c| cut(c, [236, 57, 58])),
    ("Cr, one sample too few", 5, |c| cut(c, [236, 58, 57])),
    ("no samples", 5, |c| cut(c, [0, 0, 0])),
    ("no Cb", 5, |c| cut(c, [236, 0, 58])),
    ("no Cr", 5, |c| cut(c, [236, 58, 0])),
    ("odd height, just enough", 0, |c| {
        sizes(c, [20, 9, 24, 12]);
        cut(c, [212, 58, 58])
    }),
    ("odd height, its half rounded down", 5, |c| {
        sizes(c, [20, 9, 24, 12]);
        cut(c, [212, 57, 57])
    }),
    ("odd width, its half rounded down", 5, |c| {
        sizes(c, [19, 10, 24, 12]);
        cut(c, [235, 57, 57])
    }),
    ("one by one", 0, |c| {
        sizes(c, [1, 1, 1, 1]);
        cut(c, [1, 1, 1])
    }),
    ("one by one, no chroma", 5, |c| {
        sizes(c, [1, 1, 1, 1]);
        cut(c, [1, 0, 0])
    }),
    ("two rows, the chroma stride beyond the samples", 0, |c| {
        sizes(c, [20, 2, 24, 8192]);
        cut(c, [44, 10, 10])
    }),
];

const PLACES: &[Case] = &[
    ("column 255", 0, |c| c.column = 255),
    ("row 255", 0, |c| c.row = 255),
    ("column 257", 8, |c| c.column = 257),
    ("row 257", 8, |c| c.row = 257),
    ("a column whose corner wraps to 0", 8, |c| c.column = 1 << 60),
    ("a row whose corner wraps to 0", 8, |c| c.row = 1 << 60),
    ("0 in the low 32 bits of the column", 8, |c| c.column = 1 << 32),
    ("the largest row", 8, |c| c.row = usize::MAX),
    ("least horizontal", 0, |c| c.parts[0] = -2048),
    ("below the least horizontal", 8, |c| c.parts[0] = -2049),
    ("greatest vertical", 0, |c| c.parts[1] = 2047),
    ("above the greatest vertical", 8, |c| c.parts[1] = 2048),
    ("the least number", 8, |c| c.parts[1] = i32::MIN),
    ("the greatest number", 8, |c| c.parts[0] = i32::MAX),
    ("a vector of -1", 0, |c| c.parts = [-1; 8]),
    ("a vector of -5, quarter samples", 0, |c| (c.mode, c.parts) = (1, [-5; 8])),
];

const ONE: &[Case] = &[
    ("column 256", 0, |c| c.column = 256),
    ("row 256", 0, |c| c.row = 256),
    ("parts that do not count", 0, |c| c.parts[2..].fill(i32::MAX)),
];

const FOUR: &[Case] = &[
    ("column 256", 8, |c| c.column = 256),
    ("row 256", 8, |c| c.row = 256),
    ("the last vector's vertical above", 8, |c| c.parts[7] = 2048),
    ("the second vector's horizontal below", 8, |c| c.parts[2] = -2049),
    ("all at their limits", 0, |c| c.parts = [-2048, 2047, -2048, 2047, 2047, -2048, 2047, -2048]),
];

const LENGTHS_AND_TYPES: &[Case] = &[
    ("255 luma samples", 12, |c| c.lens[0] = 255),
    ("257 luma samples", 12, |c| c.lens[0] = 257),
    ("63 of Cb", 12, |c| c.lens[1] = 63),
    ("65 of Cb", 12, |c| c.lens[1] = 65),
    ("none of Cr", 12, |c| c.lens[2] = 0),
    ("256 of Cr", 12, |c| c.lens[2] = 256),
    ("mode 2", 2, |c| c.mode = 2),
    ("1 in the low byte of the mode", 2, |c| c.mode = 257),
    ("0 bits per pixel in half samples", 0, |c| c.bits_per_pixel = 0),
    ("0 bits per pixel in quarter samples", 3, |c| (c.mode, c.bits_per_pixel) = (1, 0)),
    ("1 bit per pixel", 0, |c| (c.mode, c.bits_per_pixel, c.parts) = (1, 1, [2; 8])),
    ("9 bits per pixel", 3, |c| (c.mode, c.bits_per_pixel) = (1, 9)),
    ("rounding type 1", 0, |c| (c.rounding, c.parts) = (1, [1; 8])),
    ("rounding type 2", 31, |c| c.rounding = 2),
    ("rounding type 3", 31, |c| c.rounding = 3),
    ("rounding type 255", 31, |c| c.rounding = 255),
];

/// Everything wrong from one number of the list on, nothing before it.
fn wrong_from(call: &mut Call, number: u8) {
    call.rounding = 2;
    if number <= 12 {
        call.lens = [255, 65, 0];
    }
    if number <= 8 {
        (call.column, call.parts[1]) = (257, 2048);
    }
    if number <= 5 {
        cut(call, [235, 57, 57]);
    }
    if number <= 4 {
        (call.reference.luma.stride, call.reference.chroma_stride) = (8193, 8193);
    }
    if number <= 3 {
        (call.mode, call.bits_per_pixel) = (1, 9);
    }
    if number <= 2 {
        call.mode = 2;
    }
}

const ORDER: &[Case] = &[
    ("everything from 2 on", 2, |c| wrong_from(c, 2)),
    ("everything from 3 on", 3, |c| wrong_from(c, 3)),
    ("everything from 4 on", 4, |c| wrong_from(c, 4)),
    ("everything from 5 on", 5, |c| wrong_from(c, 5)),
    ("everything from 8 on", 8, |c| wrong_from(c, 8)),
    ("everything from 12 on", 12, |c| wrong_from(c, 12)),
    ("the rounding type alone", 31, |c| wrong_from(c, 31)),
    ("chroma's 4 before luma's 5", 4, |c| {
        cut(c, [235, 58, 58]);
        c.reference.chroma_stride = 9
    }),
    ("luma's 4 before chroma's 5", 4, |c| {
        cut(c, [236, 57, 57]);
        c.reference.luma.stride = 19
    }),
];
