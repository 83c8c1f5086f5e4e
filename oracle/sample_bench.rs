//! The two interpolations, timed: both square blocks, three places, every pair of fractions. The
//! plane is 176 x 144 noise, bits per pixel are 8, the rounding type is 0. Output areas are not
//! cleared between calls. The library judges its arguments in every call; the original's plane is
//! judged once, before the timing.

use crate::ask::{self, Block, Reference};
use crate::half_sample::{self, ReferenceVop};
use crate::quarter_sample;
use crate::random::Random;
use crate::table::{Over, Table};
use crate::timing::{measure, Times, MIX};
use crate::wanted::Wanted;
use std::hint::black_box;
use std::time::Duration;

const WIDTH: usize = 176;
const HEIGHT: usize = 144;
const BITS_PER_PIXEL: u32 = 8;

const PASSES: usize = 6;
const BUDGET: Duration = Duration::from_millis(20);

const SIDES: [usize; 2] = [16, 8];
const PLACES: [(Place, &str); 3] =
    [(Place::Inside, "inside"), (Place::LeftTop, "left-top"), (Place::Right, "right")];

#[derive(Clone, Copy)]
enum Place {
    Inside,
    LeftTop,
    Right,
}

struct Setting {
    side: usize,
    place: Place,
    fractions: (i32, i32),
}

/// A type and not a value, so that a program that times one of the two names no entry of the other.
pub trait Interpolation {
    const NAME: &'static str;
    const TITLE: &'static str;
    /// Fractions of a sample.
    const UNITS: i32;
    /// What a group of rows is held to.
    const OVER: &'static [Over];

    fn by_rust(vop: &ReferenceVop, b: &Block, out: &mut [u8]);
    fn by_rattle(plane: &Reference, b: &Block, out: &mut [u8]) -> u8;
}

pub struct Half;
pub struct Quarter;

impl Interpolation for Half {
    const NAME: &'static str = "half";
    const TITLE: &'static str = "half sample, a block";
    const UNITS: i32 = 2;
    const OVER: &'static [Over] = &[Over::Sums];

    fn by_rust(vop: &ReferenceVop, b: &Block, out: &mut [u8]) {
        half_sample::interpolate_block_into(
            vop, b.mv_x, b.mv_y, b.origin_x, b.origin_y, b.block_w, b.block_h, b.rounding, out,
        )
    }

    fn by_rattle(plane: &Reference, b: &Block, out: &mut [u8]) -> u8 {
        ask::interpolate_block_into(plane, b, out)
    }
}

impl Interpolation for Quarter {
    const NAME: &'static str = "quarter";
    const TITLE: &'static str = "quarter sample, a block";
    const UNITS: i32 = 4;
    const OVER: &'static [Over] = &[Over::Mean, Over::Sums];

    fn by_rust(vop: &ReferenceVop, b: &Block, out: &mut [u8]) {
        quarter_sample::interpolate_block_qpel_into(
            vop,
            b.mv_x,
            b.mv_y,
            b.origin_x,
            b.origin_y,
            b.block_w,
            b.block_h,
            b.rounding,
            BITS_PER_PIXEL,
            out,
        )
    }

    fn by_rattle(plane: &Reference, b: &Block, out: &mut [u8]) -> u8 {
        ask::interpolate_block_qpel_into(plane, b, BITS_PER_PIXEL, out)
    }
}

pub fn bench<I: Interpolation>(wanted: &mut Wanted) {
    let mut samples = vec![0; WIDTH * HEIGHT];
    Random::new(1).fill(&mut samples);
    let mut table = Table::new(I::TITLE);
    let mut settings = Vec::new();
    for side in SIDES {
        for (place, word) in PLACES {
            let group = format!("{} {side}x{side} {word}", I::NAME);
            let groups: Vec<(&str, Over)> =
                I::OVER.iter().map(|&over| (&group[..], over)).collect();
            for n in 0..I::UNITS * I::UNITS {
                let fractions = (n % I::UNITS, n / I::UNITS);
                table.row(format!("{group} {},{}", fractions.0, fractions.1), &groups);
                settings.push(Setting { side, place, fractions });
            }
        }
    }
    table.run(wanted, PASSES, |at, best| best.best(time::<I>(&samples, &settings[at])));
}

/// The blocks of one row: the same fractions at slightly different places.
fn blocks(setting: &Setting) -> [Block; MIX] {
    let (x, y) = match setting.place {
        Place::Inside => (64, 64),
        Place::LeftTop => (-7, -7),
        Place::Right => (WIDTH as i32 - setting.side as i32 / 2, 64),
    };
    std::array::from_fn(|n| Block {
        mv_x: setting.fractions.0,
        mv_y: setting.fractions.1,
        origin_x: x + n as i32 % 4,
        origin_y: y + n as i32 / 4,
        block_w: setting.side,
        block_h: setting.side,
        rounding: 0,
    })
}

/// Holds both sides to the same answers, then times them.
fn time<I: Interpolation>(samples: &[u8], setting: &Setting) -> Times {
    let vop = ReferenceVop::new(samples, WIDTH, HEIGHT).expect("a plane within the bounds");
    let plane = Reference { samples, width: WIDTH, height: HEIGHT, stride: WIDTH };
    let blocks = blocks(setting);
    let mut by_rust = vec![0; setting.side * setting.side];
    let mut by_rattle = vec![1; setting.side * setting.side];
    for block in &blocks {
        I::by_rust(&vop, block, &mut by_rust);
        let reply = I::by_rattle(&plane, block, &mut by_rattle);
        assert_eq!((reply, &by_rattle), (0, &by_rust), "the sides differ: see make compare");
    }
    let rust = |call| {
        let block = black_box(&blocks[call % MIX]);
        I::by_rust(black_box(&vop), block, &mut by_rust);
        black_box(&by_rust);
    };
    let rattle = |call| {
        let block = black_box(&blocks[call % MIX]);
        let reply = I::by_rattle(black_box(&plane), block, &mut by_rattle);
        black_box((reply, &by_rattle));
    };
    measure(rust, rattle, BUDGET)
}
