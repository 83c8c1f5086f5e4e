//! Random calls with nothing wrong.

use super::call::{Call, Function};
use super::plane::Plane;
use crate::ask::Block;
use crate::random::Random;

pub fn call<'a>(function: Function, plane: &'a Plane, random: &mut Random) -> Call<'a> {
    let reference = plane.reference();
    let (block_w, block_h) = (random.pick(&[8, 16]), random.pick(&[8, 16]));
    let across = random.pick(&MANNERS);
    let down = if random.chance(60) { across } else { random.pick(&MANNERS) };
    let (origin_x, mv_x) = place(across, function, reference.width, block_w, random);
    let (origin_y, mv_y) = place(down, function, reference.height, block_h, random);
    let rounding = match random.size(0, 3) {
        0 => 0,
        1 => 1,
        _ => random.byte(),
    };
    Call {
        function,
        reference,
        block: Block { mv_x, mv_y, origin_x, origin_y, block_w, block_h, rounding },
        bits_per_pixel: bits_per_pixel(plane.largest, random),
        out_len: block_w * block_h,
    }
}

/// Half of the time enough bits for every sample, else any number of bits.
pub fn bits_per_pixel(largest: u8, random: &mut Random) -> u32 {
    let enough = (8 - largest.leading_zeros()).max(1);
    let least = if random.chance(50) { enough } else { 1 };
    random.int(least as i32, 8) as u32
}

/// How origin and vector of one axis are chosen.
#[derive(Clone, Copy)]
enum Manner {
    /// The block wholly inside the plane, if the plane is long enough.
    Inside,
    LowEdge,
    HighEdge,
    /// A far origin whose vector leads back to the plane or its edges.
    Back,
    Limits,
    Anywhere,
}

use Manner::*;

const MANNERS: [Manner; 12] = [
    Inside, Inside, Inside, Inside, LowEdge, LowEdge, HighEdge, HighEdge, Back, Back, Limits,
    Anywhere,
];

/// Origin and vector along one axis of a plane `length` long, for a block `side` long.
fn place(
    manner: Manner,
    function: Function,
    length: usize,
    side: usize,
    random: &mut Random,
) -> (i32, i32) {
    let (length, side, units) = (length as i32, side as i32, function.units());
    let fraction = random.int(0, units - 1);
    let small = random.int(-5 * units, 5 * units);
    let (origin, vector) = match manner {
        Inside => {
            let whole = random.int(-30, 30);
            let start = random.int(0, (length - side - 1).max(0));
            (start - whole, whole * units + fraction)
        }
        LowEdge => (random.int(-side - 3, 3), small),
        HighEdge => (random.int(length - side - 3, length + 3), small),
        Back => {
            let far = random.int(-2000, 2000);
            let start = random.int(-side - 3, length + 3);
            (far, (start - far) * units + fraction)
        }
        Limits => {
            (random.pick(&[-4096, -4095, 4095, 4096]), random.pick(&[-2048, -2047, 2046, 2047]))
        }
        Anywhere => (random.int(-4096, 4096), random.int(-2048, 2047)),
    };
    (origin.clamp(-4096, 4096), vector.clamp(-2048, 2047))
}
