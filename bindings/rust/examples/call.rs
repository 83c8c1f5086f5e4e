//! Calls the library and fails where an answer is not the one named here: a block of a slope, half a
//! sample to the right; the vector of a macroblock whose picture is the reference moved by 3 samples
//! and 1; and that picture whole, coded macroblock by macroblock, against a flat prediction and
//! against the one that the library makes by the vectors found.
//!
//! README.md shows the lines between `shown` and `so far`; `make call` holds it to them.

use hencouch::{interpolate_block_into, Block, Events, MotionVector, Point, Prediction};
use hencouch::{Quantising, Record, ReferencePlanes, Run, Settings, Totals};
// shown
use hencouch::{estimate_motion, Estimated, Mode, Place, Reference, Refusal, Search, Source};

// so far
const WIDTH: usize = 48;
const HEIGHT: usize = 32;

// shown
/// One vector for the second macroblock, in half samples, and its sum.
fn search(y: &[u8], samples: &[u8]) -> Result<Estimated, Refusal> {
    estimate_motion(&Search {
        source: Source::luma(y, WIDTH, HEIGHT),
        place: Place { column: 1, row: 0 },
        reference: Reference { samples, width: WIDTH, height: HEIGHT, stride: WIDTH },
        mode: Mode::HALF,
        fcode: 1,
    })
}
// so far

/// A 16 x 16 block, half a sample to the right of 8, 8.
fn predict(samples: &[u8]) -> Result<[u8; 256], Refusal> {
    let reference = Reference { samples, width: WIDTH, height: HEIGHT, stride: WIDTH };
    let (vector, origin) = (MotionVector { x: 1, y: 0 }, Point { x: 8, y: 8 });
    let block = Block { vector, origin, block_w: 16, block_h: 16, rounding: 0 };
    let mut out = [0; 256];
    interpolate_block_into(&reference, &block, &mut out)?;
    Ok(out)
}

/// Every macroblock's record, and the totals. Chroma is flat, and so is the prediction where it is
/// lent.
fn code(y: &[u8], samples: &[u8], lent: bool) -> Result<(Vec<Record>, Totals), Refusal> {
    let flat = [128; WIDTH * HEIGHT / 4];
    let source = Source { y, cb: &flat, cr: &flat, width: WIDTH, height: HEIGHT };
    let luma = Reference { samples, width: WIDTH, height: HEIGHT, stride: WIDTH };
    let planes = ReferencePlanes { luma, cb: &flat, cr: &flat, chroma_stride: WIDTH / 2 };
    let prediction = Prediction { y: &flat[..256], cb: &flat[..64], cr: &flat[..64] };
    let quantising = Quantising::second_method(5);
    let settings = Settings { fcode: 1, mode: Mode::HALF, vectors: 4, quantising };
    let mut events = Events::<384>::new();
    let mut run = Run::open(WIDTH, HEIGHT)?;
    let mut records = Vec::new();
    while records.len() < WIDTH.div_ceil(16) * HEIGHT.div_ceil(16) {
        let areas = events.areas();
        records.push(match lent {
            true => run.step(&settings, &luma, &source, &prediction, areas)?,
            false => run.step_predicted(&settings, &planes, 0, &source, areas)?,
        });
    }
    Ok((records, run.close()?))
}

fn draw(sample: impl Fn(usize, usize) -> usize) -> Vec<u8> {
    (0..WIDTH * HEIGHT).map(|k| sample(k % WIDTH, k / WIDTH) as u8).collect()
}

fn texture(x: usize, y: usize) -> usize {
    x * x * 7 + y * y * 13 + x * y * 5
}

fn main() -> Result<(), Refusal> {
    let out = predict(&draw(|x, y| 4 * x + y))?;
    let wanted = std::array::from_fn(|k| (4 * (8 + k % 16) + 8 + k / 16 + 2) as u8);
    assert_eq!(out, wanted, "the prediction is not the one named");
    let refused = predict(&[0; 7]);
    assert_eq!(refused, Err(Refusal::ReferenceBytes), "seven samples are too few");

    let (now, before) = (draw(|x, y| texture(x + 3, y + 1)), draw(texture));
    let found = search(&now, &before)?;
    let moved = MotionVector { x: 6, y: 2 };
    assert_eq!((found.vector, found.sum), (moved, 0), "the vector is not the one named");

    let (records, totals) = code(&now, &before, true)?;
    let second = &records[1];
    assert_eq!((second.vector, second.vectors), (moved, [moved; 4]), "the vectors differ");
    assert_eq!((second.patterns.luma, second.patterns.chroma), (15, 0), "the patterns differ");
    assert_eq!(second.counts, [58, 58, 57, 60, 0, 0], "the counts of events differ");
    assert_eq!(totals.macroblocks, 6, "the count of macroblocks differs");

    let (predicted, _) = code(&now, &before, false)?;
    assert_eq!(predicted[1].vectors, [moved; 4], "the vectors differ where they predict");
    assert_eq!(predicted[1].counts, [0; 6], "the prediction made here leaves something");
    println!("from Rust: {:?} ..., {found:?}, {refused:?}, {totals:?}", &out[..3]);
    Ok(())
}
