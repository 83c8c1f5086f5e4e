//! Random calls with nothing wrong.

use super::call::{Call, Function};
use super::refusal;
use super::scene::Scene;
use crate::ask::Search;
use crate::random::Random;

pub fn call<'a>(function: Function, scene: &'a Scene, random: &mut Random) -> Call<'a> {
    let (source, reference) = (scene.source(), scene.reference());
    let mode = random.size(0, 1) as u32;
    let largest = reference.samples.iter().copied().max().unwrap_or(0);
    let fcode = fcode(scene, mode, random);
    let search = Search {
        source,
        column: random.size(0, (source.width - 1) / 16),
        row: random.size(0, (source.height - 1) / 16),
        reference,
        mode,
        bits_per_pixel: if mode == 1 {
            bits_per_pixel(largest, random)
        } else {
            random.byte().into()
        },
        fcode,
    };
    Call::new(function, search, seed(scene, mode, fcode, random))
}

/// Half of the time the least that reaches the motion, else any.
fn fcode(scene: &Scene, mode: u32, random: &mut Random) -> u32 {
    let far = scene.motion.0.abs().max(scene.motion.1.abs()) << (1 + mode);
    let least = (1..7).find(|&fcode| refusal::range(fcode).1 >= far + 4).unwrap_or(7);
    if random.chance(50) {
        least
    } else {
        random.int(1, 7) as u32
    }
}

/// Half of the time enough bits for every sample, else any number of bits.
fn bits_per_pixel(largest: u8, random: &mut Random) -> u32 {
    let enough = (8 - largest.leading_zeros()).max(1);
    let least = if random.chance(50) { enough } else { 1 };
    random.int(least as i32, 8) as u32
}

/// At or near the motion, anywhere, at a limit, near zero, or zero.
fn seed(scene: &Scene, mode: u32, fcode: u32, random: &mut Random) -> (i32, i32) {
    let (low, high) = refusal::range(fcode);
    let units = 2 << mode;
    let manner = random.size(0, 7);
    let mut part = |motion: i32| {
        let part = match manner {
            0..=2 => motion * units + random.int(-2 * units, 2 * units),
            3 | 4 => random.int(low, high),
            5 => random.pick(&[low, low + 1, low + 2, high - 1, high]),
            6 => random.int(-7, 7),
            _ => 0,
        };
        part.clamp(low, high)
    };
    (part(scene.motion.0), part(scene.motion.1))
}
