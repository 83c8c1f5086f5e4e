//! A source and a reference with a motion between them, as random calls use them.

use super::contents::{self, Kind, KINDS};
use super::shape::{Sizes, SHAPES};
use crate::ask::{Reference, Source};
use crate::random::Random;
use crate::turns::Lendable;

/// Bytes around lent samples. They are noise, so that a read past either end shows.
const MARGIN: usize = 64;

pub struct Scene {
    pub kind: Kind,
    pub shape: &'static str,
    /// How far the source's samples lie from their like in the reference.
    pub motion: (i32, i32),
    sizes: Sizes,
    source: Lending,
    reference: Lending,
}

impl Lendable for Scene {
    /// All pairs of kind and shape come up.
    fn random(turn: usize, random: &mut Random) -> Scene {
        let kind = KINDS[turn % KINDS.len()];
        let shape = match kind {
            // The valley has to lie inside the reference.
            Kind::Valley => random.pick(&["same size", "larger", "176x144"]),
            _ => SHAPES[turn / KINDS.len() % SHAPES.len()],
        };
        let sizes = Sizes::random(shape, random);
        let motion = motion(shape, random);
        let pair = contents::pair(kind, motion, random);
        let less = if random.chance(40) { random.size(0, 7) } else { 0 };
        let (width, height) = sizes.source;
        let source = Lending::new(width, height, width, |x, y| (pair.source)(x, y) >> less, random);
        let (width, height) = sizes.reference;
        let sample = |x, y| (pair.reference)(x, y) >> less;
        let reference = Lending::new(width, height, sizes.stride, sample, random);
        Scene { kind, shape, motion: pair.motion, sizes, source, reference }
    }

    fn unchanged(&self) -> bool {
        self.source.unchanged() && self.reference.unchanged()
    }
}

impl Scene {
    pub fn source(&self) -> Source<'_> {
        let (width, height) = self.sizes.source;
        Source { samples: self.source.samples(), width, height }
    }

    pub fn reference(&self) -> Reference<'_> {
        let (width, height) = self.sizes.reference;
        Reference { samples: self.reference.samples(), width, height, stride: self.sizes.stride }
    }
}

fn motion(shape: &str, random: &mut Random) -> (i32, i32) {
    let reach = random.pick(&[1, 3, 8, 9, 12, 18, 33, 60]);
    let far = random.int(-1040, 1040);
    let near = (random.int(-reach, reach), random.int(-reach, reach));
    match shape {
        "long" if random.chance(60) => (far, near.1),
        "tall" if random.chance(60) => (near.0, far),
        _ => near,
    }
}

/// Samples between two margins, and a copy of all to compare with.
pub struct Lending {
    store: Vec<u8>,
    before: Vec<u8>,
}

impl Lending {
    pub fn new(
        width: usize,
        height: usize,
        stride: usize,
        sample: impl Fn(i32, i32) -> u8,
        random: &mut Random,
    ) -> Self {
        let len = (height - 1) * stride + width + random.pick(&[0, 0, 0, 1, 30]);
        let mut store = vec![0; len + 2 * MARGIN];
        random.fill(&mut store);
        for y in 0..height {
            for x in 0..width {
                store[MARGIN + y * stride + x] = sample(x as i32, y as i32);
            }
        }
        let before = store.clone();
        Lending { store, before }
    }

    pub fn samples(&self) -> &[u8] {
        &self.store[MARGIN..self.store.len() - MARGIN]
    }

    pub fn unchanged(&self) -> bool {
        self.store == self.before
    }
}
