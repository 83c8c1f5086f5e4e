//! A random clip with nothing wrong.

use crate::ask::{Macroblock, Prediction, Source};
use crate::broodline::Header;
use crate::macroblock::predicted::{self, Predicted};
use crate::random::Random;
use crate::search::contents::{self, Kind, KINDS};

pub struct Moving {
    pub header: Header,
    /// What the luma shows.
    pub kind: Kind,
    /// What each macroblock is coded against.
    pub predictions: Vec<predicted::Kind>,
    /// The whole input.
    pub bytes: Vec<u8>,
}

impl Moving {
    /// The clip for the given turn of a run. All settings come up with all kinds of picture.
    pub fn random(turn: usize, random: &mut Random) -> Moving {
        let header = header(turn, random);
        let kind = random.pick(&KINDS);
        let reach = random.pick(&[1, 3, 8, 9, 12, 18, 33, 60]);
        let motion = (random.int(-reach, reach), random.int(-reach, reach));
        let luma = contents::pair(kind, motion, random);
        let (width, height) = header.sides();
        let samples = draw((width, height), &*luma.source);
        let half = (width.div_ceil(2), height.div_ceil(2));
        let [cb, cr] = [0; 2].map(|_| {
            let kind = random.pick(&KINDS);
            draw(half, &*contents::pair(kind, motion, random).source)
        });
        let reference = draw((width, height), &*luma.reference);
        let mut bytes = header.bytes().to_vec();
        for plane in [&samples, &cb, &cr, &reference] {
            bytes.extend(plane);
        }
        let mut predictions = Vec::new();
        for k in 0..header.macroblocks() {
            let predicted = Predicted::random(
                &Macroblock {
                    source: Source { samples: &samples, width, height },
                    cb: &cb,
                    cr: &cr,
                    column: k % header.columns(),
                    row: k / header.columns(),
                    prediction: Prediction { y: &[], cb: &[], cr: &[] },
                },
                random,
            );
            let Prediction { y, cb, cr } = predicted.lent();
            for part in [y, cb, cr] {
                bytes.extend(part);
            }
            predictions.push(predicted.kind);
        }
        Moving { header, kind, predictions, bytes }
    }
}

fn header(turn: usize, random: &mut Random) -> Header {
    let (width, height) = sides(random);
    let any = random.int(1, 31) as u8;
    Header {
        width: width as u16,
        height: height as u16,
        fcode: (1 + turn % 7) as u8,
        mode: (turn / 7 % 2) as u8,
        quantiser: random.pick(&[1, 31, any, any]),
        vectors: [1, 4][turn / 14 % 2],
    }
}

/// Mostly at most 48, at times one sample wide or high, at times as large as can be.
fn sides(random: &mut Random) -> (usize, usize) {
    match random.size(0, 99) {
        0 => (176, 144),
        1 => (random.size(49, 176), random.size(1, 144)),
        2 => (random.size(1, 176), random.size(49, 144)),
        3 => (176, random.size(1, 17)),
        4 => (random.size(1, 17), 144),
        5 => (1, 1),
        6..=10 => (1, random.size(2, 48)),
        11..=15 => (random.size(2, 48), 1),
        16..=30 => (16 * random.size(1, 3), 16 * random.size(1, 3)),
        31..=40 => (16 * random.size(1, 2) + 1, 16 * random.size(1, 2) - 1),
        _ => (random.size(1, 48), random.size(1, 48)),
    }
}

fn draw((width, height): (usize, usize), sample: &dyn Fn(i32, i32) -> u8) -> Vec<u8> {
    (0..width * height).map(|k| sample((k % width) as i32, (k / width) as i32)).collect()
}
