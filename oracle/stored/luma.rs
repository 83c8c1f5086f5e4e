//! Calls of luma prediction in either mode: a block, a macroblock by one vector and by four.

use super::call::Call;
use super::planes::with_reference;
use super::samples::{origin, part, placed, rounding};
use crate::random::Random;

/// Bits per pixel count in quarter mode alone: half mode takes any.
pub fn by_mode(c: Call, turn: usize, random: &mut Random) -> Call {
    let mode = turn % 2;
    let bits = if mode == 1 { turn / 2 % 8 + 1 } else { random.pick(&[0, 8, 9]) };
    let c = c.set("mode", mode as u32).set("bits_per_pixel", bits as u32);
    // A type above 1 is refused here: of what an interpolation would be handed, the low bit.
    c.set("rounding", rounding(turn / 4 % 2, random) & 1)
}

pub fn vector(turn: usize, random: &mut Random) -> [i32; 2] {
    let units = if turn % 2 == 1 { 4 } else { 2 };
    [0, 1].map(|_| {
        let fraction = random.int(0, units - 1);
        part(units, fraction, random)
    })
}

pub fn blocks() -> Vec<Call> {
    let mut random = Random::new(6);
    let sides = [(8, 8), (16, 16), (16, 8), (8, 16)];
    let one = |turn: usize| {
        let c = by_mode(Call::of("predict_luma_block"), turn, &mut random);
        let c = placed(c, vector(turn, &mut random), &mut random);
        let (width, height) = sides[turn / 2 % 4];
        let c = c.size("block_w", width).size("block_h", height).lent("out", width * height);
        with_reference(c, turn + turn / 10, &mut random)
    };
    (0..72).map(one).collect()
}

pub fn one_vector() -> Vec<Call> {
    let mut random = Random::new(7);
    let one = |turn: usize| {
        let c = by_mode(Call::of("predict_luma_macroblock"), turn, &mut random);
        let c = placed(c, vector(turn, &mut random), &mut random).lent("out", 256);
        with_reference(c, turn + turn / 10, &mut random)
    };
    (0..48).map(one).collect()
}

/// The blocks to the right and below begin 8 further, where no vector may lie beyond the limit.
pub fn four_vectors() -> Vec<Call> {
    let mut random = Random::new(8);
    let one = |turn: usize| {
        let c = by_mode(Call::of("predict_luma_macroblock_4mv"), turn, &mut random);
        let vectors = [(); 4].map(|_| vector(turn, &mut random)).concat();
        let mut from = || origin(&mut random).min(4096 - 8);
        let c = c.set("origin_x", from()).set("origin_y", from());
        let c = c.reads("vectors", &vectors).lent("out", 256);
        with_reference(c, turn + turn / 10, &mut random)
    };
    (0..48).map(one).collect()
}
