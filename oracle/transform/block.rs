//! Random residuals of several kinds, all within -255..255.

use crate::idct::cos_table;
use crate::random::Random;

#[derive(Clone, Copy, PartialEq)]
pub enum Kind {
    /// Any numbers.
    Noise,
    /// Numbers of a few bits.
    Small,
    /// Every number -255 or 255.
    Corners,
    /// One to six numbers that are not 0.
    Sparse,
    /// The signs of one cosine product, at 255 or below: the greatest coefficients there are.
    Matched,
    /// The numbers add up to 4 more than a multiple of 8, so that the first coefficient is a half.
    Tie,
    /// The same of few small numbers.
    SparseTie,
}

impl Kind {
    pub const ALL: [Kind; 7] = [
        Kind::Noise,
        Kind::Small,
        Kind::Corners,
        Kind::Sparse,
        Kind::Matched,
        Kind::Tie,
        Kind::SparseTie,
    ];

    pub fn name(self) -> &'static str {
        match self {
            Kind::Noise => "noise",
            Kind::Small => "small",
            Kind::Corners => "corners",
            Kind::Sparse => "sparse",
            Kind::Matched => "matched",
            Kind::Tie => "tie",
            Kind::SparseTie => "sparse tie",
        }
    }
}

pub fn residual(kind: Kind, random: &mut Random) -> [i32; 64] {
    let most = random.pick(&[1, 2, 3, 7, 20, 60]);
    match kind {
        Kind::Noise => std::array::from_fn(|_| random.int(-255, 255)),
        Kind::Small => std::array::from_fn(|_| random.int(-most, most)),
        Kind::Corners => std::array::from_fn(|_| random.pick(&[-255, 255])),
        Kind::Sparse => sparse(255, random),
        Kind::Matched => matched(random),
        Kind::Tie => tied(std::array::from_fn(|_| random.int(-most, most)), random),
        Kind::SparseTie => tied(sparse(most, random), random),
    }
}

fn sparse(most: i32, random: &mut Random) -> [i32; 64] {
    let mut block = [0; 64];
    for _ in 0..random.size(1, 6) {
        block[random.size(0, 63)] = random.int(-most, most);
    }
    block
}

fn matched(random: &mut Random) -> [i32; 64] {
    let (u, v) = (random.size(0, 7), random.size(0, 7));
    let height = random.pick(&[255, -255, 254, 128, -77, 1]);
    let cos = cos_table();
    std::array::from_fn(|k| if cos[v][k / 8] * cos[u][k % 8] < 0.0 { -height } else { height })
}

/// One number changed by at most 7, so that the sum is 4 more than a multiple of 8.
fn tied(mut block: [i32; 64], random: &mut Random) -> [i32; 64] {
    let place = random.size(0, 63);
    let missing = (4 - block.iter().sum::<i32>()).rem_euclid(8);
    block[place] += if block[place] > 0 { missing - 8 } else { missing };
    block
}
