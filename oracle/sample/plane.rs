//! Random reference planes: shapes from one sample to the largest, and several sorts of contents.

use crate::ask::Reference;
use crate::random::Random;
use crate::turns::Lendable;

pub const SHAPES: [&str; 8] =
    ["1x1", "1xN", "Nx1", "narrow", "176x144", "wide stride", "longer", "large"];

/// The shapes in turn, those that a block fits into more often.
const TURNS: [usize; 14] = [0, 4, 5, 6, 7, 1, 3, 4, 5, 6, 7, 2, 3, 4];

/// Bytes around the lent samples. They are as random as the samples, so that a read past either
/// end gives a wrong block.
const MARGIN: usize = 64;

/// So many valid calls are made on each plane.
pub const CALLS: usize = 250;

pub struct Plane {
    pub shape: usize,
    width: usize,
    height: usize,
    stride: usize,
    len: usize,
    /// The largest sample lent, which is within a number of bits or above it.
    pub largest: u8,
    store: Vec<u8>,
    before: Vec<u8>,
}

impl Lendable for Plane {
    fn random(turn: usize, random: &mut Random) -> Plane {
        let shape = TURNS[turn % TURNS.len()];
        let (width, height, stride) = geometry(SHAPES[shape], random);
        Plane::new(shape, (width, height), stride, random)
    }

    fn unchanged(&self) -> bool {
        self.store == self.before
    }
}

impl Plane {
    /// A plane of these sides, with as many samples more as its shape has.
    pub fn new(
        shape: usize,
        (width, height): (usize, usize),
        stride: usize,
        random: &mut Random,
    ) -> Plane {
        let surplus = match SHAPES[shape] {
            "longer" => random.size(1, 500),
            _ => random.pick(&[0, 0, 1]),
        };
        let len = (height - 1) * stride + width + surplus;
        let store = contents(len + 2 * MARGIN, random);
        let largest = store[MARGIN..MARGIN + len].iter().copied().max().unwrap_or(0);
        let before = store.clone();
        Plane { shape, width, height, stride, len, largest, store, before }
    }

    pub fn reference(&self) -> Reference<'_> {
        let samples = &self.store[MARGIN..MARGIN + self.len];
        Reference { samples, width: self.width, height: self.height, stride: self.stride }
    }
}

fn geometry(shape: &str, random: &mut Random) -> (usize, usize, usize) {
    let (width, height) = match shape {
        "1x1" => (1, 1),
        "1xN" => (1, random.size(2, 200)),
        "Nx1" => (random.size(2, 200), 1),
        "narrow" => (random.size(2, 17), random.size(2, 17)),
        "176x144" => (176, 144),
        "large" => large(random),
        _ => (random.size(1, 99), random.size(1, 99)),
    };
    let stride = match shape {
        "wide stride" => random.pick(&[width + 1, width + 16, width + 500, 8192]),
        "large" if random.chance(50) => random.pick(&[width, 4096, 8192]),
        "1x1" | "1xN" | "narrow" if random.chance(50) => width + random.size(1, 20),
        _ => width,
    };
    (width, height, stride.max(width))
}

fn large(random: &mut Random) -> (usize, usize) {
    match random.size(0, 31) {
        0 => (4096, 4096),
        1..=8 => (random.size(600, 1920), random.size(400, 1088)),
        9..=19 => (4096, random.size(1, 40)),
        _ => (random.size(1, 40), 4096),
    }
}

/// Noise of 8 bits or fewer, black and white only (the filter then leaves 0..255 on both sides),
/// or a slope with a little noise.
fn contents(len: usize, random: &mut Random) -> Vec<u8> {
    let mut bytes = vec![0; len];
    random.fill(&mut bytes);
    match random.size(0, 4) {
        0 | 1 => {
            let bits = random.size(1, 8);
            bytes.iter_mut().for_each(|b| *b >>= 8 - bits);
        }
        2 => {
            let high = random.pick(&[1, 15, 128, 254, 255]);
            bytes.iter_mut().for_each(|b| *b = if *b < 128 { 0 } else { high });
        }
        3 => {
            let step = random.size(1, 9);
            bytes.iter_mut().enumerate().for_each(|(i, b)| *b = (i * step) as u8 ^ (*b & 3));
        }
        _ => {}
    }
    bytes
}
