//! Calls of a picture's run: openings, places, steps and closings, of runs as an opening leaves them
//! and of forged ones.

use super::call::Call;
use super::macroblocks::coding;
use crate::random::Random;

pub fn opened() -> Vec<Call> {
    let sides = [(16, 16), (1, 1), (4096, 4096), (176, 144), (17, 15), (1, 4096), (4096, 1), (33, 48)];
    let one = |(width, height)| Call::of("open").size("width", width).size("height", height);
    sides.into_iter().map(one).collect()
}

/// Any numbers at all: sides of 0 and of 64 bits, places past the end.
pub fn places() -> Vec<Call> {
    let mut random = Random::new(40);
    let sides = [0, 1, 15, 16, 17, 176, 4096, 4097, 1 << 32, u64::MAX - 15, u64::MAX];
    let one = |turn: usize| {
        let next = random.pick(&[0, 1, 10, 11, 98, 99, 255, 65536, 1 << 60, u64::MAX]);
        let run = [sides[turn % sides.len()], random.pick(&sides), next, random.bits(), random.bits()];
        Call::of("next_place").reads("run", &run)
    };
    (0..66).map(one).collect()
}

/// At the end of a picture, past it, and of pictures without a macroblock.
pub fn closed() -> Vec<Call> {
    let mut random = Random::new(41);
    let ends = [
        [16, 16, 1],
        [176, 144, 99],
        [17, 33, 6],
        [1, 1, u64::MAX],
        [4096, 4096, 65536],
        [0, 0, 0],
        [0, u64::MAX, 0],
        [u64::MAX, 0, 7],
        [33, 1, 4],
        [1 << 32, 16, 1 << 28],
    ];
    let one = |turn: usize| {
        let [width, height, given] = ends[turn % ends.len()];
        let (events, sums) = match turn / ends.len() {
            0 => (turn as u64, 255 * 256 * turn as u64),
            1 => (u64::MAX, u64::MAX - 1),
            _ => (random.bits(), random.bits()),
        };
        Call::of("close").reads("run", &[width, height, given, events, sums])
    };
    (0..30).map(one).collect()
}

/// Steps anywhere in a picture, with totals so far of every size, also such that wrap.
pub fn stepped() -> Vec<Call> {
    steps("step", Random::new(42))
}

pub fn stepped_predicted() -> Vec<Call> {
    steps("step_predicted", Random::new(43))
}

fn steps(entry: &'static str, mut random: Random) -> Vec<Call> {
    let one = |turn: usize| {
        let (c, (column, row)) = coding(entry, turn, &mut random);
        let (width, height) = (c.number("width") as u64, c.number("height") as u64);
        let next = row as u64 * width.div_ceil(16) + column as u64;
        let (events, sums) = match turn % 3 {
            0 => (0, 0),
            1 => (u64::MAX - random.bits() % 4, u64::MAX - random.bits() % 400),
            _ => (random.bits() >> 40, random.bits() >> 30),
        };
        c.reads("run", &[width, height, next, events, sums])
    };
    (0..14).map(one).collect()
}
