//! Samples of several kinds to lend parts of, and small sources in them.

use crate::ask::Source;
use crate::damage::places;
use crate::pictures::{noise, smooth};
use crate::random::Random;

/// Room for the largest source used here, bad sides included, and a part that begins later.
pub const STORE: usize = 1 << 17;

pub const KINDS: [&str; 5] = ["noise", "smooth", "black and white", "two shades", "specks"];

pub struct Planes {
    stores: Vec<Vec<u8>>,
    before: Vec<Vec<u8>>,
}

impl Planes {
    pub fn new(random: &mut Random) -> Self {
        let salt = random.bits();
        let stores: Vec<Vec<u8>> = (0..KINDS.len()).map(|kind| store(kind, salt)).collect();
        Planes { before: stores.clone(), stores }
    }

    /// So many samples of a kind, from a random place on.
    pub fn part(&self, kind: usize, len: usize, random: &mut Random) -> &[u8] {
        let from = random.size(0, STORE - len);
        &self.stores[kind][from..from + len]
    }

    /// A source of a kind, often not of whole macroblocks, sometimes with more samples than needed.
    pub fn source(&self, kind: usize, random: &mut Random) -> Source<'_> {
        let (width, height) = match random.size(0, 9) {
            0 => (random.size(1, 3), random.size(1, 40)),
            1 => (random.size(1, 40), random.size(1, 3)),
            2 => (16 * random.size(1, 3), 16 * random.size(1, 3)),
            3 => (random.pick(&[4095, 4096]), random.size(1, 20)),
            4 => (random.size(1, 20), random.pick(&[4095, 4096])),
            _ => (random.size(1, 50), random.size(1, 50)),
        };
        let len = width * height + random.pick(&[0, 0, 0, 1, 20]);
        Source { samples: self.part(kind, len, random), width, height }
    }

    /// A chroma plane for a source, of any kind.
    pub fn chroma(&self, source: &Source, random: &mut Random) -> &[u8] {
        let len = chroma_places(source) as usize + random.pick(&[0, 0, 0, 1, 20]);
        self.part(random.size(0, KINDS.len() - 1), len, random)
    }

    /// All of a kind.
    pub fn whole(&self, kind: usize) -> &[u8] {
        &self.stores[kind]
    }

    /// No call may change samples that are lent for reading.
    pub fn unchanged(&self) -> bool {
        self.stores == self.before
    }
}

/// How many samples each chroma plane has, exactly: sides are halves, rounded up.
pub fn chroma_places(source: &Source) -> u128 {
    places(source.width.div_ceil(2), source.height.div_ceil(2))
}

/// A macroblock of the source.
pub fn place(source: &Source, random: &mut Random) -> (usize, usize) {
    let any = |side: usize, random: &mut Random| {
        let last = (side - 1) / 16;
        if random.chance(40) {
            last
        } else {
            random.size(0, last)
        }
    };
    (any(source.width, random), any(source.height, random))
}

fn store(kind: usize, salt: u64) -> Vec<u8> {
    let sample = |k: usize| {
        let grain = noise(k as i32, kind as i32, salt);
        match kind {
            0 => grain,
            1 => smooth(k as i32 % 64, k as i32 / 64, 9, salt),
            2 => grain / 128 * 255,
            3 => 100 + grain % 2,
            // Mostly 0, at times for long, and so many with one number that is not.
            _ if noise(k as i32 / 700, 0, !salt) < 128 || grain > 2 => 0,
            _ => [255, 1, 130][grain as usize],
        }
    };
    (0..STORE).map(sample).collect()
}
