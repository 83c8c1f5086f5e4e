//! What random pictures show. A source is the reference's texture moved, sometimes by a half sample
//! more, sometimes with noise.

use crate::pictures::{bees, noise, smooth};
use crate::random::Random;
use std::rc::Rc;

#[derive(Clone, Copy, PartialEq, Eq, PartialOrd, Ord, Debug)]
pub enum Kind {
    /// One shade each, so that every place ties.
    Flat,
    /// Noise without a motion.
    Noise,
    Smooth,
    Slope,
    /// A small tile over and over, so that places a period apart tie.
    Tiles,
    /// Two neighbouring shades.
    TwoShades,
    BlackWhite,
    /// A flat source before a reference with specks about as high as the zero discount.
    Specks,
    /// Stripes aslant over a slow slope: the sums fall along a line, on which the lattice winner
    /// lies two rows away from the best place.
    Valley,
    Bees,
}

pub const KINDS: [Kind; 10] = [
    Kind::Flat,
    Kind::Smooth,
    Kind::Tiles,
    Kind::Valley,
    Kind::Specks,
    Kind::Noise,
    Kind::BlackWhite,
    Kind::Slope,
    Kind::TwoShades,
    Kind::Bees,
];

type Texture = Rc<dyn Fn(i32, i32) -> u8>;

pub struct Pair {
    pub source: Texture,
    pub reference: Texture,
    pub motion: (i32, i32),
}

pub fn pair(kind: Kind, motion: (i32, i32), random: &mut Random) -> Pair {
    let salt = random.bits();
    let shade = random.byte() / 2;
    match kind {
        Kind::Flat => {
            let other = random.pick(&[shade, shade + 1, 255]);
            Pair {
                source: Rc::new(move |_, _| shade),
                reference: Rc::new(move |_, _| other),
                motion,
            }
        }
        Kind::Noise => Pair {
            source: Rc::new(move |x, y| noise(x, y, salt)),
            reference: Rc::new(move |x, y| noise(x, y, !salt)),
            motion,
        },
        Kind::Specks => {
            let reference = specks(shade, random);
            Pair { source: Rc::new(move |_, _| shade), reference, motion }
        }
        Kind::Valley => valley(salt, random),
        Kind::Bees => Pair {
            source: Rc::new(|x, y| bees(x, y, 1)),
            reference: Rc::new(|x, y| bees(x, y, 0)),
            motion,
        },
        _ => {
            let reference = texture(kind, salt, shade, random);
            let source = moved(reference.clone(), motion, salt, random);
            Pair { source, reference, motion }
        }
    }
}

fn texture(kind: Kind, salt: u64, shade: u8, random: &mut Random) -> Texture {
    let cell = random.int(2, 14);
    let (across, down) = (random.int(-9, 9), random.int(-9, 9));
    let (width, height) = (random.int(1, 9), random.int(1, 9));
    match kind {
        Kind::Smooth => Rc::new(move |x, y| smooth(x, y, cell, salt)),
        Kind::Slope => Rc::new(move |x, y| (128 + (across * x + down * y) / 4) as u8),
        Kind::Tiles => {
            Rc::new(move |x, y| noise(x.rem_euclid(width), y.rem_euclid(height), salt) / 2)
        }
        Kind::TwoShades => Rc::new(move |x, y| shade + noise(x, y, salt) % 2),
        _ => Rc::new(move |x, y| if smooth(x, y, cell, salt) < 128 { 0 } else { 255 }),
    }
}

/// At most one speck in a macroblock, which a neighbouring place has not.
fn specks(shade: u8, random: &mut Random) -> Texture {
    let (left, top) = (random.int(0, 39), random.int(0, 39));
    let height = random.int(125, 131).min(255 - i32::from(shade)) as u8;
    Rc::new(move |x, y| {
        let speck = x.rem_euclid(40) == left && y.rem_euclid(40) == top;
        if speck {
            shade + height.max(1)
        } else {
            shade
        }
    })
}

/// The lattice has the places that are 1 more than a multiple of 4. The motion is two rows below
/// one of them, and as many columns aside as the stripes lean in two rows.
fn valley(salt: u64, random: &mut Random) -> Pair {
    let lean = random.pick(&[-3, -2, 2, 3]);
    let (column, row) = (4 * random.int(-6, 6) + 1, 4 * random.int(-6, 6) + 1);
    let reference: Texture = Rc::new(move |x, y| {
        let stripe = i32::from(noise(x - lean * y, 0, salt)) / 3;
        (stripe + y.clamp(-40, 120) + 45) as u8
    });
    let motion = (column + 2 * lean, row + 2);
    let source = reference.clone();
    let moved = move |x, y| source(x + motion.0, y + motion.1);
    Pair { source: Rc::new(moved), reference, motion }
}

/// The texture moved, by half a sample more or not, with noise or without.
fn moved(texture: Texture, (dx, dy): (i32, i32), salt: u64, random: &mut Random) -> Texture {
    let (half_x, half_y) = random.pick(&[(0, 0), (0, 0), (1, 0), (0, 1), (1, 1)]);
    let level = random.pick(&[1, 1, 1, 2, 4]);
    Rc::new(move |x, y| {
        let one = i32::from(texture(x + dx, y + dy));
        let other = i32::from(texture(x + dx + half_x, y + dy + half_y));
        let grain = i32::from(noise(x, y, !salt)) % level;
        ((one + other + 1) / 2 + grain).min(255) as u8
    })
}
