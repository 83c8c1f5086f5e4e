//! The reader of demand 3, written from the rules and apart from the coder: it uses no function
//! of the library, and none of the originals. It is handed the coder's answer, and of the call's
//! arguments the reference, the macroblock's place, the mode with its bits per pixel, the scan and
//! the quantiser; neither the source nor the prediction coded against. For sums its rounding type is
//! 0. By the count of vectors the checker asks it for the blocks of four, or doesn't. Where the
//! coder made the prediction, it is also handed the chroma planes and the rounding type.

use crate::ask::Reference;

/// The three grids of the scans, by number: at a row and a column the place in the scan.
const GRIDS: [[[usize; 8]; 8]; 3] = [
    [
        [0, 1, 2, 3, 10, 11, 12, 13],
        [4, 5, 8, 9, 17, 16, 15, 14],
        [6, 7, 19, 18, 26, 27, 28, 29],
        [20, 21, 24, 25, 30, 31, 32, 33],
        [22, 23, 34, 35, 42, 43, 44, 45],
        [36, 37, 40, 41, 46, 47, 48, 49],
        [38, 39, 50, 51, 56, 57, 58, 59],
        [52, 53, 54, 55, 60, 61, 62, 63],
    ],
    [
        [0, 4, 6, 20, 22, 36, 38, 52],
        [1, 5, 7, 21, 23, 37, 39, 53],
        [2, 8, 19, 24, 34, 40, 50, 54],
        [3, 9, 18, 25, 35, 41, 51, 55],
        [10, 17, 26, 30, 42, 46, 56, 60],
        [11, 16, 27, 31, 43, 47, 57, 61],
        [12, 15, 28, 32, 44, 48, 58, 62],
        [13, 14, 29, 33, 45, 49, 59, 63],
    ],
    [
        [0, 1, 5, 6, 14, 15, 27, 28],
        [2, 4, 7, 13, 16, 26, 29, 42],
        [3, 8, 12, 17, 25, 30, 41, 43],
        [9, 11, 18, 24, 31, 40, 44, 53],
        [10, 19, 23, 32, 39, 45, 52, 54],
        [20, 22, 33, 38, 46, 51, 55, 60],
        [21, 34, 37, 47, 50, 56, 59, 61],
        [35, 36, 48, 49, 57, 58, 62, 63],
    ],
];

/// The filter's weights at -3..4.
const TAPS: [i32; 8] = [-8, 24, -48, 160, 160, -48, 24, -8];

/// A square of samples of the reference or of a prediction, by rows.
pub type Samples = Vec<i32>;

pub struct Reader<'a> {
    pub reference: Reference<'a>,
    /// The place of the macroblock's first sample.
    pub x: i32,
    pub y: i32,
    /// Bits per pixel in quarter mode; half mode has none.
    pub quarter: Option<u32>,
    pub scan: u32,
    pub quantiser: u32,
}

/// The answer's events, and its two patterns.
pub struct Handed<'a> {
    pub lasts: &'a [u8],
    pub runs: &'a [u8],
    pub levels: &'a [i32],
    /// Luma, chroma.
    pub patterns: [u8; 2],
}

impl Reader<'_> {
    /// The 16 x 16 luma block that a vector predicts.
    pub fn luma_16(&self, vector: (i32, i32), rounding: i32) -> Samples {
        self.predict(16, (self.x, self.y), vector, rounding)
    }

    /// One of the four 8 x 8 luma blocks, 0 and 1 above 2 and 3.
    pub fn luma_8(&self, block: usize, vector: (i32, i32), rounding: i32) -> Samples {
        self.predict(8, self.corner(block), vector, rounding)
    }

    /// The 384 samples that a record's one vector or its four predict: luma, Cb, Cr.
    pub fn samples(
        &self,
        vectors: &[(i32, i32)],
        chroma: &[Reference; 2],
        rounding: i32,
    ) -> Samples {
        let mut all = match vectors {
            [one] => self.luma_16(*one, rounding),
            _ => {
                let blocks: Vec<Samples> =
                    (0..4).map(|b| self.luma_8(b, vectors[b], rounding)).collect();
                let at = |k: usize| (k / 128 * 2 + k % 16 / 8, k / 16 % 8 * 8 + k % 8);
                (0..256).map(at).map(|(block, place)| blocks[block][place]).collect()
            }
        };
        let right = self.chroma_part(vectors.iter().map(|vector| vector.0));
        let down = self.chroma_part(vectors.iter().map(|vector| vector.1));
        for plane in chroma {
            let (x, y) = (self.x / 2 + (right >> 1), self.y / 2 + (down >> 1));
            let copied = square(plane, 9, x, y);
            all.extend(half_block(&copied, 8, right & 1 == 1, down & 1 == 1, rounding));
        }
        all
    }

    /// A part of the chroma vector, in half samples, from that of one luma vector or of four.
    fn chroma_part(&self, parts: impl ExactSizeIterator<Item = i32>) -> i32 {
        let four = parts.len() == 4;
        let in_halves = |part: i32| match self.quarter {
            None => part,
            Some(_) => part.signum() * (part.abs() >> 1),
        };
        let sum: i32 = parts.map(in_halves).sum();
        if !four {
            return ((sum >> 2) << 1) + i32::from(sum & 3 > 0);
        }
        let (whole, rest) = (sum.abs() >> 4, sum.abs() & 15);
        let halves = if rest < 3 {
            0
        } else if rest < 14 {
            1
        } else {
            2
        };
        sum.signum() * (2 * whole + halves)
    }

    /// The place of a block's first sample.
    pub fn corner(&self, block: usize) -> (i32, i32) {
        (self.x + 8 * (block as i32 % 2), self.y + 8 * (block as i32 / 2))
    }

    /// A square of the reference's luma.
    pub fn square(&self, side: i32, x: i32, y: i32) -> Samples {
        square(&self.reference, side, x, y)
    }

    fn predict(
        &self,
        side: i32,
        (x, y): (i32, i32),
        (right, down): (i32, i32),
        rounding: i32,
    ) -> Samples {
        match self.quarter {
            None => {
                let copied = self.square(side + 1, x + (right >> 1), y + (down >> 1));
                half_block(&copied, side as usize, right & 1 == 1, down & 1 == 1, rounding)
            }
            Some(bits) => {
                let copied = self.square(side + 1, x + (right >> 2), y + (down >> 2));
                let limits = Limits { most: (1 << bits) - 1, rounding };
                quarter_block(&copied, side as usize, right & 3, down & 3, &limits)
            }
        }
    }

    /// The 384 levels, each block's by rows. An error where the events don't fit a block.
    pub fn levels(&self, handed: &Handed) -> Result<[i32; 384], String> {
        let mut levels = [0; 384];
        for block in 0..6 {
            let coded = match block {
                0..=3 => handed.patterns[0] >> (3 - block) & 1,
                _ => handed.patterns[1] >> (5 - block) & 1,
            };
            if coded == 0 {
                continue;
            }
            let mut counter = 0;
            let mut event = 64 * block;
            loop {
                if event == 64 * block + 64 {
                    return Err(format!("block {block} has no event marked last"));
                }
                counter += usize::from(handed.runs[event]);
                if counter > 63 {
                    return Err(format!("block {block} runs beyond its 64 places"));
                }
                levels[64 * block + self.scanned(counter)] = handed.levels[event];
                counter += 1;
                if handed.lasts[event] != 0 {
                    break;
                }
                event += 1;
            }
        }
        Ok(levels)
    }

    /// Where in a block's rows the scan is at a place.
    fn scanned(&self, place: usize) -> usize {
        let grid = &GRIDS[self.scan as usize];
        (0..64).find(|k| grid[k / 8][k % 8] == place).expect("every place is in every grid")
    }

    /// A level through the inverse of the second method.
    pub fn inverse(&self, level: i32) -> i32 {
        if level == 0 {
            return 0;
        }
        let q = self.quantiser as i32;
        let less = if q % 2 == 0 { 1 } else { 0 };
        let size = q * (2 * level.abs() + 1) - less;
        (size * level.signum()).clamp(-2048, 2047)
    }
}

/// A square of a plane from a place on. Both coordinates are clamped into the plane.
fn square(plane: &Reference, side: i32, x: i32, y: i32) -> Samples {
    let Reference { samples, width, height, stride } = *plane;
    let mut square = Samples::with_capacity((side * side) as usize);
    for row in y..y + side {
        let from = row.clamp(0, height as i32 - 1) as usize * stride;
        let across = x..x + side;
        square.extend(
            across.map(|column| {
                i32::from(samples[from + column.clamp(0, width as i32 - 1) as usize])
            }),
        );
    }
    square
}

/// 7.6.2.1, from a block with one more column and row.
fn half_block(copied: &[i32], side: usize, right: bool, down: bool, rounding: i32) -> Samples {
    let wide = side + 1;
    let mut block = Samples::with_capacity(side * side);
    for j in 0..side {
        for i in 0..side {
            let at = |across: usize, below: usize| copied[(j + below) * wide + i + across];
            block.push(match (right, down) {
                (false, false) => at(0, 0),
                (true, false) => (at(0, 0) + at(1, 0) + 1 - rounding) / 2,
                (false, true) => (at(0, 0) + at(0, 1) + 1 - rounding) / 2,
                (true, true) => (at(0, 0) + at(1, 0) + at(0, 1) + at(1, 1) + 2 - rounding) / 4,
            });
        }
    }
    block
}

/// What the filter and the averages of 7.6.2.2 are cut to, and the rounding type.
struct Limits {
    most: i32,
    rounding: i32,
}

/// 7.6.2.2, from a copied block with one more column and row: along the rows first, and of what
/// that gives down the columns. Outside the copied block its samples are mirrored.
fn quarter_block(copied: &[i32], side: usize, right: i32, down: i32, limits: &Limits) -> Samples {
    let wide = side + 1;
    let mut along = Samples::with_capacity(wide * side);
    for row in copied.chunks(wide) {
        along.extend((0..side).map(|i| between(right, limits, |t| row[mirrored(i, t, wide)])));
    }
    let mut block = Samples::with_capacity(side * side);
    for j in 0..side {
        let at = |i: usize, t: i32| along[mirrored(j, t, wide) * side + i];
        block.extend((0..side).map(|i| between(down, limits, |t| at(i, t))));
    }
    block
}

/// An index t places on from another, in a copied block of n: one below 0 becomes -t - 1, one at or
/// above n becomes 2n - 1 - t.
fn mirrored(from: usize, t: i32, n: usize) -> usize {
    let (t, n) = (from as i32 + t, n as i32);
    let inside = if t < 0 {
        -t - 1
    } else if t >= n {
        2 * n - 1 - t
    } else {
        t
    };
    inside as usize
}

/// The sample at so many quarters between the one at 0 and the one at 1. A whole place is not cut.
fn between(quarters: i32, limits: &Limits, at: impl Fn(i32) -> i32) -> i32 {
    let Limits { most, rounding } = *limits;
    let average = |one: i32, other: i32| ((one + other + 1 - rounding) / 2).min(most);
    match quarters {
        0 => at(0),
        1 => average(at(0), filtered(limits, &at)),
        2 => filtered(limits, &at),
        _ => average(filtered(limits, &at), at(1)),
    }
}

fn filtered(limits: &Limits, at: &impl Fn(i32) -> i32) -> i32 {
    let sum: i32 = TAPS.iter().zip(-3..).map(|(weight, t)| weight * at(t)).sum();
    (sum + 128 - limits.rounding).div_euclid(256).clamp(0, limits.most)
}
