//! Planes of samples for stored calls, small ones: a file of calls is to stay short.

use super::call::Call;
use crate::pictures::{noise, smooth};
use crate::random::Random;

/// Sides of a reference: single samples, single rows and columns, around a block's own sides.
pub const SIDES: [(usize, usize); 10] =
    [(12, 10), (1, 1), (1, 7), (9, 1), (2, 2), (8, 8), (9, 9), (17, 17), (16, 5), (20, 18)];

/// What a plane shows.
#[derive(Clone, Copy)]
pub enum Shown {
    /// 0 and 255 alone, at which the filter is cut.
    Extremes,
    Noise,
    Smooth,
    /// Neighbours that differ by one, at which averages round.
    Steps,
}

pub const SHOWN: [Shown; 4] = [Shown::Extremes, Shown::Noise, Shown::Smooth, Shown::Steps];

pub fn sample(shown: Shown, salt: u64, x: i32, y: i32) -> u8 {
    match shown {
        Shown::Extremes => noise(x, y, salt) / 128 * 255,
        Shown::Noise => noise(x, y, salt),
        Shown::Smooth => smooth(x, y, 5, salt),
        Shown::Steps => 127 + noise(x, y, salt) % 2,
    }
}

/// Samples by rows; what lies between a row's end and the next row is noise, as is what follows.
pub fn rows(
    (width, height): (usize, usize),
    stride: usize,
    more: usize,
    random: &mut Random,
    at: impl Fn(i32, i32) -> u8,
) -> Vec<u8> {
    let mut samples = vec![0; (height - 1) * stride + width + more];
    random.fill(&mut samples);
    for y in 0..height {
        for x in 0..width {
            samples[y * stride + x] = at(x as i32, y as i32);
        }
    }
    samples
}

/// The call with a reference; every third has a stride above its width.
pub fn with_reference(c: Call, turn: usize, random: &mut Random) -> Call {
    with_luma(c, "samples", turn, random)
}

/// The call with a reference of three planes.
pub fn with_planes(c: Call, turn: usize, random: &mut Random) -> Call {
    let c = with_luma(c, "ref_y", turn, random);
    with_chroma(c, SIDES[turn % SIDES.len()], turn, random)
}

fn with_luma(c: Call, luma: &'static str, turn: usize, random: &mut Random) -> Call {
    let sides = SIDES[turn % SIDES.len()];
    let shown = SHOWN[turn / SIDES.len() % SHOWN.len()];
    let stride = sides.0 + if turn % 3 == 1 { random.size(1, 6) } else { 0 };
    let salt = random.bits();
    let more = if turn % 4 == 3 { 2 } else { 0 };
    let samples = rows(sides, stride, more, random, |x, y| sample(shown, salt, x, y));
    c.reads(luma, &samples)
        .size("width", sides.0)
        .size("height", sides.1)
        .size("stride", stride)
}

/// A chroma plane's sides, of luma's.
pub fn chroma_sides((width, height): (usize, usize)) -> (usize, usize) {
    (width.div_ceil(2), height.div_ceil(2))
}

/// The call with the chroma planes of a reference of the given sides; every fourth pair has a stride
/// above its width.
pub fn with_chroma(c: Call, sides: (usize, usize), turn: usize, random: &mut Random) -> Call {
    let sides = chroma_sides(sides);
    let stride = sides.0 + if turn % 4 == 2 { random.size(1, 3) } else { 0 };
    let mut plane = |turn: usize| {
        let (shown, salt) = (SHOWN[turn % SHOWN.len()], random.bits());
        rows(sides, stride, turn % 5 / 4, random, |x, y| sample(shown, salt, x, y))
    };
    let (cb, cr) = (plane(turn), plane(turn + 1));
    c.reads("ref_cb", &cb).reads("ref_cr", &cr).size("chroma_stride", stride)
}
