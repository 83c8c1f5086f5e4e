//! The smallest inputs that docs/DIFFERENCES.md lists: what the Rust makes of each, and the number
//! that the library refuses it with. Where the Rust has no such value, as of an enum, there is only
//! the number.

use crate::ask::{self, Block, Prediction, Quantising, Reference, Search, Source};
use crate::fdct::forward_dct_8x8;
use crate::half_sample::{interpolate_block_into, ReferenceVop};
use crate::inverse_quant::{inverse_quant_method2_coef, saturate_fprime};
use crate::motion::MotionVector;
use crate::pvop_encode::{luma_view, mv_range, source_luma_mb, Place};
use crate::quantise::{quantise_method1_inter, quantise_method2_inter};
use crate::quarter_sample::{interpolate_block_qpel_into, reduce_qpel_to_half_pel_chroma};
use hencouch::raw;
use std::panic::{catch_unwind, set_hook, take_hook};

/// The input, what the Rust makes of it, the number here; and how each side is asked.
type Case = (&'static str, &'static str, u8, fn() -> String, fn() -> u8);

/// All cases, each of which has to have its line in the page, with the number; how many there are.
pub fn check(page: &str) -> Result<usize, String> {
    for (input, _, number, ..) in CASES {
        let line = page.lines().find(|line| line.contains(&format!("| {input} |")));
        if !line.is_some_and(|line| line.contains(&format!("| {number} |"))) {
            return Err(format!("{input}: no line with {number} in docs/DIFFERENCES.md"));
        }
    }
    let hook = take_hook();
    set_hook(Box::new(|_| ()));
    let found = CASES.iter().find_map(|&(input, rust, number, original, library)| {
        let got = catch_unwind(original).unwrap_or("panics".to_string());
        let reply = library();
        let same = got == rust && reply == number;
        (!same).then(|| {
            format!("{input}: the Rust {got}, listed as {rust}; here {reply}, listed as {number}")
        })
    });
    set_hook(hook);
    found.map_or(Ok(CASES.len()), Err)
}

/// One sample, the first of many.
static SAMPLES: [u8; 4097] = [100; 4097];

fn plane(len: usize, width: usize, height: usize, stride: usize) -> Reference<'static> {
    Reference { samples: &SAMPLES[..len], width, height, stride }
}

const ONE: (usize, usize, usize, usize) = (1, 1, 1, 1);

fn block(side: usize, origin_x: i32, mv_x: i32) -> Block {
    Block { mv_x, mv_y: 0, origin_x, origin_y: 0, block_w: side, block_h: side, rounding: 0 }
}

/// The block of the Rust's half-sample interpolation over one sample.
fn half(side: usize, origin_x: i32, mv_x: i32, out_len: usize) -> String {
    let vop = ReferenceVop::new(&SAMPLES[..1], 1, 1).expect("one sample");
    let mut out = vec![0; out_len];
    interpolate_block_into(&vop, mv_x, 0, origin_x, 0, side, side, 0, &mut out);
    let written = out.iter().filter(|&&sample| sample == 100).count();
    format!("writes {written}")
}

fn half_here(side: usize, origin_x: i32, mv_x: i32, out_len: usize) -> u8 {
    let (len, width, height, stride) = ONE;
    let reference = plane(len, width, height, stride);
    ask::interpolate_block_into(&reference, &block(side, origin_x, mv_x), &mut vec![0; out_len])
}

/// The same at a rounding type.
fn rounded(rounding: u8) -> String {
    let vop = ReferenceVop::new(&SAMPLES[..1], 1, 1).expect("one sample");
    let mut out = [0; 64];
    interpolate_block_into(&vop, 0, 0, 0, 0, 8, 8, rounding, &mut out);
    let written = out.iter().filter(|&&sample| sample == 100).count();
    format!("writes {written}")
}

fn rounded_here(rounding: u8) -> u8 {
    let (samples, out) = (&SAMPLES[..1], &mut [0; 64]);
    raw::predict_luma_block(samples, 1, 1, 1, 0, 8, 0, 0, 0, 0, 8, 8, rounding, out)
}

/// One sample of each plane.
fn predicted_here(chroma_stride: usize) -> u8 {
    let one = &SAMPLES[..1];
    let (y, cb, cr) = (&mut [0; 256], &mut [0; 64], &mut [0; 64]);
    raw::predict_macroblock(one, one, one, 1, 1, 1, chroma_stride, 0, 8, 0, 0, 0, 0, 0, y, cb, cr)
}

/// Between the two in the middle the filter gives 319.
const PEAK: [u8; 4] = [0, 255, 255, 0];

fn quarter(bits: u32) -> String {
    let vop = ReferenceVop::new(&PEAK, 4, 1).expect("four samples");
    let mut out = [0; 64];
    interpolate_block_qpel_into(&vop, 2, 0, -2, 0, 8, 8, 0, bits, &mut out);
    format!("gives {}", out[3])
}

fn quarter_here(bits: u32) -> u8 {
    let reference = Reference { samples: &PEAK, width: 4, height: 1, stride: 4 };
    ask::interpolate_block_qpel_into(&reference, &block(8, -2, 2), bits, &mut [0; 64])
}

fn reference(len: usize, width: usize, height: usize, stride: usize) -> String {
    match ReferenceVop::with_stride(&SAMPLES[..len], width, height, stride) {
        Some(_) => "takes it".to_string(),
        None => "None".to_string(),
    }
}

fn reference_here(len: usize, width: usize, height: usize, stride: usize) -> u8 {
    raw::fetch_clamped(&SAMPLES[..len], width, height, stride, 0, 0, &mut 0)
}

fn source(len: usize, width: usize, height: usize) -> Source<'static> {
    Source { samples: &SAMPLES[..len], width, height }
}

fn luma(len: usize, width: usize, height: usize, column: usize) -> String {
    let block = source_luma_mb(&luma_view(&source(len, width, height)), 0, column);
    format!("gives {}", block[0][0])
}

fn luma_here(len: usize, width: usize, height: usize, column: usize) -> u8 {
    ask::intra_activity(&source(len, width, height), column, 0, &mut 0)
}

/// One sample on both sides.
fn search(fcode: u32, mode: u32) -> Search<'static> {
    let (len, width, height, stride) = ONE;
    let reference = plane(len, width, height, stride);
    let source = source(1, 1, 1);
    Search { source, column: 0, row: 0, reference, mode, bits_per_pixel: 8, fcode }
}

fn search_here(fcode: u32, mode: u32) -> u8 {
    ask::estimate_motion(&search(fcode, mode), &mut [0; 2], &mut [0; 1])
}

fn first(of: i32) -> [i32; 64] {
    std::array::from_fn(|k| if k == 0 { of } else { 0 })
}

fn quantised_here(f: i32, quantiser: u32, first_method: u8, weight: u8) -> u8 {
    raw::quantise_block(&first(f), quantiser, first_method, &[weight; 64], &mut [0; 64])
}

fn residual_here(y: &[u8]) -> u8 {
    let prediction = Prediction { y, cb: &SAMPLES[..64], cr: &SAMPLES[..64] };
    let (cb, cr) = (&SAMPLES[..1], &SAMPLES[..1]);
    let macroblock =
        ask::Macroblock { source: source(1, 1, 1), cb, cr, column: 0, row: 0, prediction };
    ask::macroblock_residual(&macroblock, &mut [0; 384])
}

fn coded_here(vectors: u32) -> u8 {
    let weights = &SAMPLES[..64];
    let quantising = Quantising { quantiser: 1, first_method: 0, weights, scan: 2 };
    let [y, cb, cr] = [256, 64, 64].map(|len| &SAMPLES[..len]);
    let prediction = Prediction { y, cb, cr };
    let (search, cb, cr) = (search(1, 0), &SAMPLES[..1], &SAMPLES[..1]);
    let coding = ask::Coding { search, vectors, cb, cr, prediction, quantising };
    let (lasts, runs, levels) = (&mut [0; 384], &mut [0; 384], &mut [0; 384]);
    let record = ask::Record {
        vector: &mut [0; 2],
        sum: &mut 0,
        four_vectors: &mut [0; 8],
        four_sums: &mut [0; 4],
        patterns: &mut [0; 2],
        counts: &mut [0; 6],
    };
    ask::code_macroblock(&coding, ask::Areas { lasts, runs, levels }, record)
}

fn nothing() -> String {
    "has none".to_string()
}

const CASES: &[Case] = &[
    (
        "one sample, 8 x 8, an area of 63",
        "panics",
        12,
        || half(8, 0, 0, 63),
        || half_here(8, 0, 0, 63),
    ),
    (
        "one sample, 8 x 8, an area of 65",
        "writes 64",
        12,
        || half(8, 0, 0, 65),
        || half_here(8, 0, 0, 65),
    ),
    ("one sample, 1 x 1", "writes 1", 14, || half(1, 0, 0, 1), || half_here(1, 0, 0, 1)),
    (
        "one sample, 8 x 8, origin 4,097",
        "writes 64",
        8,
        || half(8, 4097, 0, 64),
        || half_here(8, 4097, 0, 64),
    ),
    (
        "one sample, 8 x 8, vector 2,048",
        "writes 64",
        8,
        || half(8, 0, 2048, 64),
        || half_here(8, 0, 2048, 64),
    ),
    ("0 bits per pixel, samples 0, 255, 255, 0", "gives 0", 3, || quarter(0), || quarter_here(0)),
    ("9 bits per pixel, samples 0, 255, 255, 0", "gives 63", 3, || quarter(9), || quarter_here(9)),
    ("1 x 1, no sample", "None", 5, || reference(0, 1, 1, 1), || reference_here(0, 1, 1, 1)),
    ("0 x 1, one sample", "None", 4, || reference(1, 0, 1, 1), || reference_here(1, 0, 1, 1)),
    (
        "4,097 x 1",
        "takes it",
        4,
        || reference(4097, 4097, 1, 4097),
        || reference_here(4097, 4097, 1, 4097),
    ),
    (
        "1 x 1, stride 8,193",
        "takes it",
        4,
        || reference(1, 1, 1, 8193),
        || reference_here(1, 1, 1, 8193),
    ),
    ("source 0 x 1, one sample", "gives 100", 6, || luma(1, 0, 1, 0), || luma_here(1, 0, 1, 0)),
    ("source 4,097 x 1", "gives 100", 6, || luma(4097, 4097, 1, 0), || luma_here(4097, 4097, 1, 0)),
    ("source 1 x 1, no sample", "panics", 7, || luma(0, 1, 1, 0), || luma_here(0, 1, 1, 0)),
    ("source 1 x 1, column 1", "gives 100", 8, || luma(1, 1, 1, 1), || luma_here(1, 1, 1, 1)),
    ("fcode 0", "panics", 1, || format!("{:?}", mv_range(0)), || search_here(0, 0)),
    ("fcode 8", "panics", 1, || format!("{:?}", mv_range(8)), || search_here(8, 0)),
    ("mode 2", "has none", 2, nothing, || search_here(1, 2)),
    (
        "fcode 1, seed 32",
        "gives 0",
        9,
        || format!("gives {}", Place::new(&search(1, 0)).four(MotionVector { x: 32, y: 0 }).0[0].x),
        || ask::estimate_motion_4mv(&search(1, 0), (32, 0), &mut [0; 8], &mut [0; 4]),
    ),
    (
        "a residual of 256, others 0",
        "gives 32",
        13,
        || {
            let mut rows = [[0; 8]; 8];
            rows[0][0] = 256;
            format!("gives {}", forward_dct_8x8(&rows, 8)[0][0])
        },
        || raw::forward_dct_8x8(&first(256), &mut [0; 64]),
    ),
    (
        "quantiser 1, a coefficient of 2,048",
        "gives 1024",
        13,
        || format!("gives {}", quantise_method2_inter(2048, 1)),
        || quantised_here(2048, 1, 0, 1),
    ),
    (
        "quantiser 1, a level of 2,048",
        "gives 2047",
        13,
        || format!("gives {}", saturate_fprime(inverse_quant_method2_coef(2048, 1), 8)),
        || raw::inverse_block(&first(2048), 1, &mut [0; 64]),
    ),
    (
        "quantiser 0, coefficients 0",
        "panics",
        10,
        || quantise_method2_inter(0, 0).to_string(),
        || quantised_here(0, 0, 0, 1),
    ),
    (
        "quantiser 32, coefficients 0",
        "gives 0",
        10,
        || format!("gives {}", quantise_method2_inter(0, 32)),
        || quantised_here(0, 32, 0, 1),
    ),
    (
        "first method, weights 0",
        "panics",
        11,
        || quantise_method1_inter(0, 0, 1).to_string(),
        || quantised_here(0, 1, 1, 0),
    ),
    ("scan 3", "has none", 14, nothing, || raw::forward_scan(&[0; 64], 3, &mut [0; 64])),
    ("a prediction of 255 samples", "has none", 12, nothing, || residual_here(&SAMPLES[..255])),
    ("2 vectors", "has none", 14, nothing, || coded_here(2)),
    (
        "the chroma vector of 2,048",
        "gives 1024",
        8,
        || format!("gives {}", reduce_qpel_to_half_pel_chroma(2048)),
        || raw::chroma_vector(0, 2048, 0, &mut [0; 2]),
    ),
    (
        "1 x 1, chroma stride 8,193",
        "takes it",
        4,
        || reference(1, 1, 1, 8193),
        || predicted_here(8193),
    ),
    ("one sample, 8 x 8, rounding type 2", "writes 64", 31, || rounded(2), || rounded_here(2)),
];
