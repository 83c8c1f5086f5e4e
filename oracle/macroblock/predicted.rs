//! What a macroblock is coded against: predictions near the source and far from it.

use crate::ask::{Macroblock, Prediction, Source};
use crate::random::Random;

#[derive(Clone, Copy, PartialEq, Debug)]
pub enum Kind {
    /// The source itself.
    Exact,
    /// The source and a little noise.
    Near,
    /// The source, but for one block or some, which are noise.
    SomeBlocks,
    /// The source from one place aside.
    Aside,
    /// One shade.
    Flat,
    /// As far from the source as can be.
    Opposite,
    Noise,
}

pub const KINDS: [Kind; 7] = [
    Kind::Exact,
    Kind::Near,
    Kind::SomeBlocks,
    Kind::Aside,
    Kind::Flat,
    Kind::Opposite,
    Kind::Noise,
];

pub struct Predicted {
    pub kind: Kind,
    y: Vec<u8>,
    cb: Vec<u8>,
    cr: Vec<u8>,
}

impl Predicted {
    /// For a macroblock with nothing wrong; its own prediction is not looked at.
    pub fn random(m: &Macroblock, random: &mut Random) -> Self {
        let kind = random.pick(&KINDS);
        let reach = random.pick(&[1, 2, 4, 9, 30]);
        let shade = random.pick(&[0, 1, 127, 128, 255]);
        let coded: Vec<bool> = (0..6).map(|_| random.chance(35)).collect();
        let aside = usize::from(kind == Kind::Aside);
        let mut predict = |sample: u8, block: usize| match kind {
            Kind::Exact | Kind::Aside => sample,
            Kind::Near => (i32::from(sample) + random.int(-reach, reach)).clamp(0, 255) as u8,
            Kind::SomeBlocks if !coded[block] => sample,
            Kind::SomeBlocks | Kind::Noise => random.byte(),
            Kind::Flat => shade,
            Kind::Opposite => 255 * u8::from(sample < 128),
        };
        let (x, y) = (16 * m.column + aside, 16 * m.row + aside);
        let luma = |k: usize| clamped(&m.source, x + k % 16, y + k / 16);
        let y = (0..256).map(|k| predict(luma(k), k / 128 * 2 + k % 16 / 8)).collect();
        let mut chroma = |plane: &[u8], block: usize| {
            let (width, height) = (m.source.width.div_ceil(2), m.source.height.div_ceil(2));
            let half = Source { samples: plane, width, height };
            let (x, y) = (8 * m.column + aside, 8 * m.row + aside);
            (0..64).map(|k| predict(clamped(&half, x + k % 8, y + k / 8), block)).collect()
        };
        Predicted { kind, y, cb: chroma(m.cb, 4), cr: chroma(m.cr, 5) }
    }

    pub fn lent(&self) -> Prediction<'_> {
        Prediction { y: &self.y, cb: &self.cb, cr: &self.cr }
    }
}

/// A sample of a plane, its last column and row repeated.
fn clamped(plane: &Source, x: usize, y: usize) -> u8 {
    plane.samples[y.min(plane.height - 1) * plane.width + x.min(plane.width - 1)]
}
