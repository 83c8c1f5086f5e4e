//! Calls of the transform, of levels, scans and events.

use super::call::Call;
use crate::random::Random;

/// 64 numbers within a reach.
pub fn within(reach: i32, random: &mut Random) -> Vec<i32> {
    (0..64).map(|_| random.int(-reach, reach)).collect()
}

/// Residuals of every kind: even ones, single ones, stripes, and such whose first coefficient is
/// near a half.
pub fn residuals(turn: usize, random: &mut Random) -> Vec<i32> {
    let mut block = vec![0; 64];
    match turn % 12 {
        0 => block = vec![[1, 255, -255, 0][turn / 12 % 4]; 64],
        1 => block[random.size(0, 63)] = random.pick(&[255, -255, 1]),
        2 => block[..4].fill([1, -1, 3, 5][turn / 12 % 4]),
        3 => block[10..22].fill([1, -1, 3, 25][turn / 12 % 4]),
        4 => (0..64).for_each(|i| block[i] = if (i + i / 8) % 2 == 0 { 255 } else { -255 }),
        5 => (0..64).for_each(|i| block[i] = if i % 8 < 4 { 255 } else { -255 }),
        6 => (0..64).for_each(|i| block[i] = if i / 8 % 2 == 0 { 255 } else { -254 }),
        7 => (0..64).for_each(|i| block[i] = (i as i32 % 8 - 4) * (i as i32 / 8 - 3)),
        8 => block = within(2, random),
        9 => block = within(12, random),
        10 => block = within(90, random),
        _ => block = within(255, random),
    }
    block
}

/// Two residuals alone, by which a coefficient lies on a half as the original computes it: found by
/// asking it beside one that rounds halves to even, at each place where one was found.
const HALVES: [[(usize, i32); 2]; 16] = [
    [(13, 3), (26, -7)],
    [(3, -3), (40, 7)],
    [(27, 3), (34, 7)],
    [(9, -2), (42, 2)],
    [(27, 2), (56, -2)],
    [(16, 4), (61, 4)],
    [(26, -4), (44, -4)],
    [(11, 2), (47, 2)],
    [(4, -4), (21, -4)],
    [(4, 2), (39, 2)],
    [(9, -2), (60, 2)],
    [(39, -2), (41, -2)],
    [(29, -2), (44, 2)],
    [(20, 7), (50, -3)],
    [(35, 3), (45, -7)],
    [(0, 6), (16, 2)],
];

fn two_alone(two: [(usize, i32); 2]) -> Vec<i32> {
    let mut block = vec![0; 64];
    two.into_iter().for_each(|(at, residual)| block[at] = residual);
    block
}

pub fn transforms() -> Vec<Call> {
    let mut random = Random::new(11);
    let any: Vec<Vec<i32>> = (0..60).map(|turn| residuals(turn, &mut random)).collect();
    let all = any.into_iter().chain(HALVES.map(two_alone));
    all.map(|block| Call::of("forward_dct_8x8").reads("residual", &block).lent("out", 64)).collect()
}

/// Any weights but 0; every fifth matrix is even.
pub fn weights(turn: usize, random: &mut Random) -> Vec<u8> {
    match turn % 5 {
        0 => vec![[16, 1, 255, 17][turn / 5 % 4]; 64],
        _ => (0..64).map(|_| random.int(1, 255) as u8).collect(),
    }
}

/// Coefficients on both sides of the places where a level begins, and at the range's ends.
fn coefficients(turn: usize, q: i32, weight: i32, random: &mut Random) -> Vec<i32> {
    let ends = [-2048, -2047, 2047, 2046, 0, 1, -1, 2];
    let step = if turn % 2 == 0 { 2 * q } else { (weight * q / 8).max(1) };
    let start = if turn % 2 == 0 { q / 2 } else { weight * q / 16 };
    let near = (1..=9).flat_map(|level| (-1..=1).map(move |d| start + level * step + d));
    let both = near.flat_map(|x| [x, -x]).filter(|x| (-2048..=2047).contains(x));
    let mut all: Vec<i32> = ends.into_iter().chain(both).take(64).collect();
    while all.len() < 64 {
        all.push(random.int(-2048, 2047));
    }
    all
}

/// Every quantiser under both methods. Under the second the matrix counts by its length alone.
pub fn quantised() -> Vec<Call> {
    let mut random = Random::new(12);
    let one = |turn: usize| {
        let q = (turn / 2 % 31) as i32 + 1;
        let first = if turn % 2 == 0 { 0 } else { random.pick(&[1, 1, 2, 255]) };
        let mut matrix = weights(turn / 2, &mut random);
        let input = coefficients(turn, q, matrix[9].into(), &mut random);
        matrix[63] *= u8::from(first != 0);
        Call::of("quantise_block")
            .reads("coefficients", &input)
            .set("quantiser", q as u32)
            .set("first_method", first)
            .reads("weights", &matrix)
            .lent("out", 64)
    };
    (0..66).map(one).collect()
}

pub fn inverse() -> Vec<Call> {
    let mut random = Random::new(13);
    let one = |turn: usize| {
        let q = turn as u32 % 31 + 1;
        let mut levels: Vec<i32> = (-16..=16).chain([-2047, 2047, 2046, 33, 34, 1023]).collect();
        levels.resize_with(64, || random.int(-2047, 2047));
        let c = Call::of("inverse_block").reads("levels", &levels);
        c.set("quantiser", q).lent("out", 64)
    };
    (0..40).map(one).collect()
}

/// Levels from none to all, also the first, the last or any one alone.
fn sparse(turn: usize, random: &mut Random) -> Vec<i32> {
    let reach = random.pick(&[1, 3, 40, 2047]);
    let mut level = |percent| match random.chance(percent) {
        true => random.int(-reach, reach),
        false => 0,
    };
    let mut block = vec![0; 64];
    match turn % 8 {
        0 => {}
        1 => block[0] = -2047,
        2 => block[63] = 2047,
        3 => block = (1..=64).map(|i| if i % 2 == 0 { i } else { -i }).collect(),
        4 => block[[1, 31, 32, 62][turn / 8 % 4]] = 5,
        5 => block.iter_mut().for_each(|x| *x = level(10)),
        6 => block.iter_mut().for_each(|x| *x = level(50)),
        _ => block.iter_mut().for_each(|x| *x = level(95)),
    }
    block
}

pub fn scans(name: &str) -> Vec<Call> {
    let entry = if name == "forward_scan" { "forward_scan" } else { "inverse_scan" };
    let mut random = Random::new(14);
    let one = |turn: usize| {
        let levels = sparse([3, 2, 5, 7, 0, 6][turn / 3], &mut random);
        Call::of(entry).reads("levels", &levels).set("scan", turn as u32 % 3).lent("out", 64)
    };
    (0..18).map(one).collect()
}

pub fn events() -> Vec<Call> {
    let mut random = Random::new(15);
    let one = |turn| {
        let c = Call::of("levels_to_events").reads("levels", &sparse(turn, &mut random));
        c.lent("lasts", 64).lent("runs", 64).lent("out_levels", 64)
    };
    (0..32).map(one).collect()
}

pub fn inter_scans() -> Vec<Call> {
    let bytes = [0, 1, 2, 255];
    let pair = |turn: usize| {
        let c = Call::of("inter_scan").set("interlaced", bytes[turn / 4]);
        c.set("alternate_scan", bytes[turn % 4])
    };
    (0..16).map(pair).collect()
}
