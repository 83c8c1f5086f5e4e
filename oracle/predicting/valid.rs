//! Random calls with nothing wrong.

use super::call::Call;
use super::planes::Planes;
use super::refusal::farthest;
use super::Count;
use crate::damage::bits;
use crate::random::Random;
use crate::sample::valid::bits_per_pixel;

pub fn call<'a>(count: Count, planes: &'a Planes, random: &mut Random) -> Call<'a> {
    let reference = planes.reference();
    let mode = random.size(0, 1) as u32;
    let sides = [reference.luma.width, reference.luma.height];
    let far = random.chance(35);
    let place = sides.map(|side| along(far, side, farthest(count), random));
    let units = 2 << mode;
    let own = [0, 1].map(|axis| part(far, place[axis], sides[axis], units, random));
    let spread = random.pick(if far { &[0, 1, 9, 2047] } else { &[0, 1, 3, 9] });
    let apart = random.chance(20);
    let parts = [0, 1, 2, 3, 4, 5, 6, 7].map(|i| match apart {
        true => part(far, place[i % 2], sides[i % 2], units, random),
        false => (own[i % 2] + random.int(-spread, spread)).clamp(-2048, 2047),
    });
    // In half mode any number of bits will do.
    let any = mode == 0 && random.chance(50);
    Call {
        count,
        reference,
        mode,
        bits_per_pixel: if any {
            bits(random)
        } else {
            bits_per_pixel(planes.luma.largest, random)
        },
        parts,
        column: place[0],
        row: place[1],
        rounding: random.size(0, 1) as u8,
        lens: [256, 64, 64],
    }
}

/// A column or a row of the reference; or just past it, as far as may be, or anywhere.
fn along(far: bool, side: usize, most: usize, random: &mut Random) -> usize {
    let last = side.div_ceil(16);
    let any = random.size(0, most);
    match far {
        false => random.size(0, last - 1),
        true => random.pick(&[last.min(most), most - 1, most, any]),
    }
}

/// A part of a vector: small, or to the reference or its edges; or at a limit, or any.
fn part(far: bool, place: usize, side: usize, units: i32, random: &mut Random) -> i32 {
    let (corner, side) = (16 * place as i32, side as i32);
    let part = match random.size(0, if far { 5 } else { 3 }) {
        0 | 1 => random.int(-5 * units, 5 * units),
        2 | 3 => (random.int(-16, side) - corner) * units + random.int(0, units - 1),
        4 => random.pick(&[-2048, -2047, 2046, 2047]),
        _ => random.int(-2048, 2047),
    };
    part.clamp(-2048, 2047)
}
