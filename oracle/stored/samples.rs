//! Calls of the sample leaves: every fraction, side, rounding type and number of bits, blocks
//! inside, across each edge and far outside, and numbers at their limits.

use super::call::Call;
use super::planes::with_reference;
use crate::random::Random;

const SIDES: [(usize, usize); 4] = [(8, 8), (16, 8), (8, 16), (16, 16)];

/// A rounding byte whose low bit is given; the others do not count.
pub fn rounding(bit: usize, random: &mut Random) -> u8 {
    (random.byte() & 0xfe * u8::from(random.chance(25))) | bit as u8
}

/// A vector's part with a fraction, near or at a limit.
pub fn part(units: i32, fraction: i32, random: &mut Random) -> i32 {
    let near = random.int(-9, 9);
    let whole = random.pick(&[near, near, near, -2048 / units, 2047 / units]);
    whole * units + fraction
}

/// Where a block begins: mostly near the plane, now and then at a limit.
pub fn origin(random: &mut Random) -> i32 {
    let near = random.int(-18, 20);
    random.pick(&[near, near, near, 0, 8, -4096, 4096])
}

pub fn placed(c: Call, [x, y]: [i32; 2], random: &mut Random) -> Call {
    c.set("mv_x", x)
        .set("mv_y", y)
        .set("origin_x", origin(random))
        .set("origin_y", origin(random))
}

fn sided(c: Call, (width, height): (usize, usize)) -> Call {
    c.size("block_w", width).size("block_h", height).lent("out", width * height)
}

/// Each pair of fractions with each pair of sides and each rounding type, three times.
pub fn half() -> Vec<Call> {
    let mut random = Random::new(1);
    let one = |turn: usize| {
        let (x, y) = (turn as i32 % 2, turn as i32 / 2 % 2);
        let vector = [part(2, x, &mut random), part(2, y, &mut random)];
        let c = placed(Call::of("interpolate_block_into"), vector, &mut random);
        let c = sided(c, SIDES[turn / 4 % 4]).set("rounding", rounding(turn / 16 % 2, &mut random));
        with_reference(c, turn, &mut random)
    };
    (0..96).map(one).collect()
}

/// Each pair of fractions with every number of bits, and with each pair of sides and rounding type.
pub fn quarter() -> Vec<Call> {
    let mut random = Random::new(2);
    let one = |turn: usize| {
        let (x, y) = (turn as i32 % 4, turn as i32 / 4 % 4);
        let vector = [part(4, x, &mut random), part(4, y, &mut random)];
        let c = placed(Call::of("interpolate_block_qpel_into"), vector, &mut random);
        let rest = turn / 16;
        let bits = if rest < 8 { rest + 1 } else { random.pick(&[8, 8, 8, 5, 1]) };
        let c = sided(c, SIDES[(rest + turn) % 4]).set("bits_per_pixel", bits as u32);
        let c = c.set("rounding", rounding((rest / 4 + turn / 4) % 2, &mut random));
        with_reference(c, turn + rest, &mut random)
    };
    (0..192).map(one).collect()
}

/// Corners, and neighbours at which each average rounds, both ways.
pub fn pixels() -> Vec<Call> {
    let mut random = Random::new(3);
    let sets = [[0; 4], [255; 4], [1, 2, 2, 1], [0, 0, 1, 1], [0, 1, 0, 0], [3, 4, 4, 4]];
    let mut calls = Vec::new();
    for turn in 0..128 {
        let four = sets.get(turn / 16).copied().unwrap_or_else(|| [(); 4].map(|_| random.byte()));
        let half = |bit: usize, random: &mut Random| match turn / bit % 2 {
            0 => 0,
            _ => random.pick(&[1, 1, 2, 128, 255]),
        };
        let names = ["a", "b", "c", "d"].into_iter().zip(four);
        let c = names.fold(Call::of("interpolate_pixel"), |c, (name, x)| c.set(name, x));
        let c = c.set("half_x", half(1, &mut random)).set("half_y", half(2, &mut random));
        calls.push(c.set("rounding", [0, 1, 254, 255][turn / 4 % 4]));
    }
    calls
}

pub fn splits(name: &str) -> Vec<Call> {
    let entry = if name == "split_half_pel" { "split_half_pel" } else { "split_quarter_pel" };
    let limits = [-2048, -2047, 2046, 2047, i32::MIN, i32::MIN + 1, i32::MAX - 1, i32::MAX];
    let all = (-9..=9).chain(limits).chain([-1000, 999, 12345, -54321]);
    all.map(|mv| Call::of(entry).set("mv", mv)).collect()
}

/// Inside, on each edge, just outside it and as far as a number goes.
pub fn fetched() -> Vec<Call> {
    let mut random = Random::new(4);
    let mut calls = Vec::new();
    for turn in 0..60 {
        let c = with_reference(Call::of("fetch_clamped"), turn, &mut random);
        let mut at = |side: i128| {
            let side = side as i32;
            let inside = random.int(0, side - 1);
            random.pick(&[inside, 0, -1, side - 1, side, side + 3, i32::MIN, i32::MAX, -7])
        };
        let (x, y) = (at(c.number("width")), at(c.number("height")));
        calls.push(c.set("x", x).set("y", y));
    }
    calls
}

/// Blocks of any sides, also of none.
pub fn copied() -> Vec<Call> {
    let mut random = Random::new(5);
    let sides = [(9, 9), (17, 17), (1, 1), (3, 5), (16, 16), (0, 4), (4, 0), (33, 2), (2, 30)];
    let mut calls = Vec::new();
    for turn in 0..45 {
        let c = with_reference(Call::of("copy_block"), turn + turn / 9, &mut random);
        let mut at = || {
            let near = random.int(-20, 20);
            random.pick(&[near, near, near, near, -1, 0, i32::MIN, i32::MAX, i32::MAX - 2])
        };
        let (x, y) = (at(), at());
        calls.push(sided(c.set("x", x).set("y", y), sides[turn % sides.len()]));
    }
    calls
}
