//! The prediction of a macroblock's three planes, timed: by one vector and by four, in either mode,
//! inside the planes and across their left and top edges. A row goes through vectors of many
//! fractions. The planes are noise, luma of 176 x 144; bits per pixel are 8, the rounding type is 0.
//! The other side is the same work by the originals' interpolations. Output areas are not cleared
//! between calls. The library judges its arguments in every call; the originals' planes are judged
//! once, before the timing.

use crate::ask::{self, Predicting, Reference, ReferencePlanes};
use crate::bvop_prediction::BVopSampleMode;
use crate::predicted::{Planes, Samples};
use crate::pvop_mv::PvopMbMotion;
use crate::random::Random;
use crate::table::Table;
use crate::timing::{measure, Times, MIX};
use crate::wanted::Wanted;
use std::hint::black_box;
use std::time::Duration;

const WIDTH: usize = 176;
const HEIGHT: usize = 144;
const BITS_PER_PIXEL: u32 = 8;
const ROUNDING: u8 = 0;

const PASSES: usize = 6;
const BUDGET: Duration = Duration::from_millis(40);

const VECTORS: [&str; 2] = ["one vector", "four vectors"];
const MODES: [&str; 2] = ["half", "quarter"];
const PLACES: [&str; 2] = ["inside", "left-top"];
/// Their columns and rows.
const CORNERS: [(usize, usize); 2] = [(4, 4), (0, 0)];

/// A row by its words' numbers.
struct Row {
    vectors: usize,
    mode: usize,
    place: usize,
}

pub fn bench(wanted: &mut Wanted) {
    let mut samples = [WIDTH * HEIGHT, WIDTH * HEIGHT / 4, WIDTH * HEIGHT / 4].map(|n| vec![0; n]);
    let mut random = Random::new(1);
    samples.iter_mut().for_each(|plane| random.fill(plane));
    let mut table = Table::new("prediction of three planes, a macroblock");
    let mut rows = Vec::new();
    for n in 0..8 {
        let row = Row { vectors: n / 4, mode: n / 2 % 2, place: n % 2 };
        let (vectors, mode, place) = (VECTORS[row.vectors], MODES[row.mode], PLACES[row.place]);
        table.row(format!("prediction {vectors} {mode} {place}"), &[]);
        rows.push(row);
    }
    table.run(wanted, PASSES, |at, best| best.best(time(&samples, &rows[at])));
}

impl Row {
    /// The vectors of four blocks, each one's horizontal, then vertical; one vector is the first.
    fn parts(&self, n: usize) -> [i32; 8] {
        let whole = [3, -7][self.place];
        std::array::from_fn(|at| {
            let k = (n + 3 * (at / 2)) as i32;
            let (units, x, y) = match self.mode {
                0 => (2, k % 2, k / 2 % 2),
                _ => (4, k % 4, (k / 4 + k % 2 * 2) % 4),
            };
            match at % 2 {
                0 => units * (whole + k % 3) + x,
                _ => units * (whole - k % 2) + y,
            }
        })
    }

    fn by_rust(&self, planes: &Planes, parts: &[i32; 8]) -> Samples {
        let mode = BVopSampleMode::of(self.mode as u32, BITS_PER_PIXEL);
        let motion = match self.vectors {
            0 => PvopMbMotion::one(parts[0], parts[1]),
            _ => PvopMbMotion::four(parts),
        };
        planes.predict(mode, motion, CORNERS[self.place], ROUNDING)
    }

    fn by_rattle(&self, reference: &ReferencePlanes, parts: &[i32; 8], out: &mut Samples) -> u8 {
        let (column, row) = CORNERS[self.place];
        let predicting = Predicting {
            reference: *reference,
            mode: self.mode as u32,
            bits_per_pixel: BITS_PER_PIXEL,
            column,
            row,
            rounding: ROUNDING,
        };
        let out: [&mut [u8]; 3] = [&mut out.y, &mut out.cb, &mut out.cr];
        match self.vectors {
            0 => ask::predict_macroblock(&predicting, [parts[0], parts[1]], out),
            _ => ask::predict_macroblock_4mv(&predicting, parts, out),
        }
    }
}

/// Holds both sides to the same answers, then times them.
fn time([y, cb, cr]: &[Vec<u8>; 3], row: &Row) -> Times {
    let luma = Reference { samples: y, width: WIDTH, height: HEIGHT, stride: WIDTH };
    let reference = ReferencePlanes { luma, cb, cr, chroma_stride: WIDTH / 2 };
    let planes = Planes::new(&reference);
    let parts: [[i32; 8]; MIX] = std::array::from_fn(|n| row.parts(n));
    let mut made = Samples { y: [0; 256], cb: [0; 64], cr: [0; 64] };
    for parts in &parts {
        let reply = row.by_rattle(&reference, parts, &mut made);
        let wanted = row.by_rust(&planes, parts);
        assert_eq!((reply, &made), (0, &wanted), "the sides differ: see make compare");
    }
    let rust = |call: usize| {
        black_box(row.by_rust(black_box(&planes), black_box(&parts[call % MIX])));
    };
    let rattle = |call: usize| {
        let parts = black_box(&parts[call % MIX]);
        let reply = row.by_rattle(black_box(&reference), parts, &mut made);
        black_box((reply, &made));
    };
    measure(rust, rattle, BUDGET)
}
