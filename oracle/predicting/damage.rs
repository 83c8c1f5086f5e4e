//! Random calls with something wrong: one thing alone, or several at once, so that the order in
//! which the refusals are looked at shows.

use super::call::Call;
use super::refusal::{farthest, NUMBERS};
use super::{beyond_limits, Count};
use crate::ask::{Reference, ReferencePlanes};
use crate::damage::{beyond_32_bits, bits, choose, mode, planes, rounding};
use crate::random::Random;

pub fn call<'a>(count: Count, store: &'a [u8], random: &mut Random) -> Call<'a> {
    let mut call = sound(count, store, random);
    for number in choose(NUMBERS, random) {
        match number {
            2 => call.mode = mode(random),
            3 => (call.mode, call.bits_per_pixel) = (1, bits(random)),
            4 => planes::sizes(&mut call.reference, random),
            5 => planes::samples(&mut call.reference, random),
            8 => place(&mut call, random),
            12 => length(&mut call.lens, random),
            _ => call.rounding = rounding(random),
        }
    }
    call
}

/// A call with nothing wrong. Its planes are the whole store, longer than needed.
fn sound<'a>(count: Count, store: &'a [u8], random: &mut Random) -> Call<'a> {
    let (width, height) = (random.size(1, 40), random.size(1, 40));
    let luma = Reference { samples: store, width, height, stride: width + random.size(0, 5) };
    let chroma_stride = width.div_ceil(2) + random.size(0, 5);
    let mode = random.size(0, 1) as u32;
    Call {
        count,
        reference: ReferencePlanes { luma, cb: store, cr: store, chroma_stride },
        mode,
        // In half mode any number of bits will do.
        bits_per_pixel: if mode == 1 { random.int(1, 8) as u32 } else { bits(random) },
        parts: [(); 8].map(|()| random.int(-2048, 2047)),
        column: random.size(0, farthest(count)),
        row: random.size(0, farthest(count)),
        rounding: random.size(0, 1) as u8,
        lens: [256, 64, 64],
    }
}

/// A part of a vector beyond its limits, or a column or a row beyond the farthest.
fn place(call: &mut Call, random: &mut Random) {
    let which = random.size(1, 7);
    // 16 times the second wraps around to 0.
    let far = random.pick(&[usize::MAX, 1 << 60, 1 << 63, beyond_32_bits(0), 4096]);
    let first = farthest(call.count) + 1;
    for (number, part) in [(&mut call.column, 1), (&mut call.row, 2)] {
        if which & part != 0 {
            *number = random.pick(&[first, first, first + 1, far]);
        }
    }
    if which & 4 != 0 {
        beyond_limits(&mut call.parts[..call.count.parts()], random);
    }
}

/// One area or more of another length.
fn length(lens: &mut [usize; 3], random: &mut Random) {
    let which = random.size(1, 7);
    for (k, len) in lens.iter_mut().enumerate() {
        if which >> k & 1 != 0 {
            *len = random.pick(&[0, 1, *len - 1, *len + 1, 320 - *len, 384]);
        }
    }
}
