//! Calls of chroma vectors and of a macroblock's whole prediction, by one vector and by four.

use super::call::Call;
use super::luma::{by_mode, vector};
use super::planes::with_planes;
use crate::random::Random;

const LIMITS: [i32; 4] = [-2048, -2047, 2046, 2047];

/// Each component beside another, in both modes.
pub fn chroma_of_one() -> Vec<Call> {
    let parts: Vec<i32> = (-9..=9).chain(LIMITS).chain([-1000, 999]).collect();
    let one = |turn: usize| {
        let (x, y) = (parts[turn / 2], parts[(turn / 2 + 7) % parts.len()]);
        Call::of("chroma_vector").set("mode", turn as u32 % 2).set("mv_x", x).set("mv_y", y)
    };
    (0..2 * parts.len()).map(one).collect()
}

/// Sums around each place where the rounding changes.
const SUMS: [i32; 17] = [0, 1, 2, 3, 4, 12, 13, 14, 15, 16, 17, 18, 19, 29, 30, 31, 32];

/// Four parts whose sum is this; in quarter mode the sum of their halves, each toward zero, since all
/// are odd and no nearer to zero.
fn parts(sum: i32, mode: usize, random: &mut Random) -> [i32; 4] {
    let sign = if sum < 0 { -1 } else { 1 };
    let mut halves = [0; 4];
    (0..sum.abs()).for_each(|_| halves[random.size(0, 3)] += sign);
    match mode {
        0 => halves,
        _ => halves.map(|part| 2 * part + sign),
    }
}

/// Two lists of four parts as four vectors.
fn vectors(x: [i32; 4], y: [i32; 4]) -> Vec<i32> {
    (0..4).flat_map(|b| [x[b], y[b]]).collect()
}

/// Every sum and its negative beside another, in both modes; parts of both signs; the limits.
pub fn chroma_of_four() -> Vec<Call> {
    let mut random = Random::new(50);
    let sums: Vec<i32> = SUMS.into_iter().flat_map(|sum| [sum, -sum]).collect();
    let mut lists = Vec::new();
    for turn in 0..2 * sums.len() {
        let (mode, at) = (turn % 2, turn / 2);
        let x = parts(sums[at], mode, &mut random);
        lists.push((mode, x, parts(sums[(at + 11) % sums.len()], mode, &mut random)));
    }
    for mode in [0, 1] {
        lists.push((mode, [-1, -1, 0, 0], [3, -1, 1, 0]));
        lists.push((mode, [-2048; 4], [2047; 4]));
        lists.push((mode, [-2048, 2047, 2047, -2047], [1, 2047, -2048, 17]));
        for _ in 0..4 {
            let mut four = || [(); 4].map(|_| random.int(-60, 60));
            lists.push((mode, four(), four()));
        }
    }
    let call = |(mode, x, y)| {
        let c = Call::of("chroma_vector_4mv").set("mode", mode as u32);
        c.reads("vectors", &vectors(x, y))
    };
    lists.into_iter().map(call).collect()
}

/// A macroblock near the planes, now and then at the last place that is near enough.
fn placed(c: Call, last: usize, random: &mut Random) -> Call {
    let mut at = || random.pick(&[0, 0, 0, 1, 1, last]);
    let (column, row) = (at(), at());
    let c = c.size("column", column).size("row", row);
    c.lent("y", 256).lent("cb", 64).lent("cr", 64)
}

/// So many vectors that stay near the planes and near each other, every fifth time such as go to the
/// limits too.
fn moved<const N: usize>(turn: usize, random: &mut Random) -> [[i32; 2]; N] {
    let near = [0, 1].map(|_| random.int(-24, 24));
    [(); N].map(|_| match turn % 5 {
        4 => vector(turn, random),
        _ => near.map(|part| part + random.int(-5, 5)),
    })
}

pub fn one_vector() -> Vec<Call> {
    let mut random = Random::new(51);
    let one = |turn: usize| {
        let c = by_mode(Call::of("predict_macroblock"), turn, &mut random);
        let [[x, y]] = moved(turn, &mut random);
        let c = placed(c.set("mv_x", x).set("mv_y", y), 256, &mut random);
        with_planes(c, turn + turn / 10, &mut random)
    };
    (0..48).map(one).collect()
}

/// The blocks to the right and below begin 8 further.
pub fn four_vectors() -> Vec<Call> {
    let mut random = Random::new(52);
    let one = |turn: usize| {
        let c = by_mode(Call::of("predict_macroblock_4mv"), turn, &mut random);
        let vectors = moved::<4>(turn, &mut random).concat();
        let c = placed(c.reads("vectors", &vectors), 255, &mut random);
        with_planes(c, turn + turn / 10, &mut random)
    };
    (0..48).map(one).collect()
}
