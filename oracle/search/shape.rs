//! Sizes of a source and a reference: equal, smaller, larger, of one sample, and long.

use crate::random::Random;

pub const SHAPES: [&str; 12] = [
    "same size",
    "1x1",
    "smaller",
    "wide stride",
    "1xN",
    "larger",
    "Nx1",
    "176x144",
    "narrow",
    "long",
    "tiny source",
    "tall",
];

pub struct Sizes {
    pub source: (usize, usize),
    pub reference: (usize, usize),
    pub stride: usize,
}

impl Sizes {
    pub fn random(shape: &str, random: &mut Random) -> Sizes {
        let any = |random: &mut Random| (random.size(1, 70), random.size(1, 70));
        let source = match shape {
            "176x144" => (176, 144),
            "same size" => (random.size(20, 90), random.size(20, 90)),
            "tiny source" => (random.size(1, 9), random.size(1, 9)),
            "long" => (random.size(300, 2200), random.size(1, 20)),
            "tall" => (random.size(1, 20), random.size(300, 2200)),
            _ => any(random),
        };
        let reference = match shape {
            "1x1" => (1, 1),
            "1xN" => (1, random.size(2, 90)),
            "Nx1" => (random.size(2, 90), 1),
            "narrow" => (random.size(2, 17), random.size(2, 17)),
            "smaller" => (random.size(1, source.0), random.size(1, source.1)),
            "larger" => (source.0 + random.size(1, 40), source.1 + random.size(1, 40)),
            "wide stride" | "tiny source" => any(random),
            _ => source,
        };
        let stride = match shape {
            "wide stride" => random.pick(&[reference.0 + 1, reference.0 + 16, 500, 8192]),
            _ if random.chance(20) => reference.0 + random.size(1, 20),
            _ => reference.0,
        };
        Sizes { source, reference, stride }
    }
}
