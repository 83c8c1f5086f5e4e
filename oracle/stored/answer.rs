//! The originals' answers to calls with nothing wrong, by the header's names. What the originals
//! have no function for is written out from the rules: copied blocks, luma prediction in either
//! mode, the chroma vector of four, `inter_scan`, the run.

use super::call::Call;
use super::reasons::{is_step, macroblocks, reference};
use crate::ask::{Coding, Prediction, Quantising, Reference, ReferencePlanes, Search, Source};
use crate::bvop_prediction::BVopSampleMode;
use crate::fdct::forward_dct_8x8;
use crate::half_sample::{self, ReferenceVop};
use crate::inverse_quant::{inverse_quant_method2_coef, saturate_fprime};
use crate::ivop_encode::{self, FrameView};
use crate::motion::MotionVector;
use crate::predicted::{self, Planes, Samples};
use crate::pvop_encode::{self, rows_of, scan_of, Coder, Part, Place};
use crate::pvop_mv::{predict_luma_macroblock, PvopMbMotion};
use crate::quantise::{quantise_method1_inter, quantise_method2_inter};
use crate::quarter_sample;
use crate::scan;
use crate::texture::AcEvent;
use std::collections::BTreeMap;

/// What each lent area then holds.
pub type Areas = BTreeMap<&'static str, Vec<i128>>;

pub fn answer(c: &Call) -> Areas {
    match c.entry {
        "interpolate_block_into" | "interpolate_block_qpel_into" | "predict_luma_block" => {
            one("out", block(c))
        }
        "interpolate_pixel" => one("sample", [pixel(c)]),
        "split_half_pel" => split(half_sample::split_half_pel(c.signed("mv")), "half"),
        "split_quarter_pel" => split(quarter_sample::split_quarter_pel(c.signed("mv")), "fraction"),
        "fetch_clamped" => one("sample", [fetched(c, c.number("x"), c.number("y"))]),
        "copy_block" => one("out", copied(c)),
        "predict_luma_macroblock" | "predict_luma_macroblock_4mv" => one("out", luma_by_motion(c)),
        "chroma_vector" | "chroma_vector_4mv" => one("vector", chroma_vector(c)),
        "predict_macroblock" | "predict_macroblock_4mv" => {
            let names = ["y", "cb", "cr"].into_iter();
            names.zip(made(c, motion(c))).flat_map(|(name, area)| one(name, area)).collect()
        }
        "source_luma_block" => one("out", luma(c).concat()),
        "source_chroma_block" => one("out", frame(c, &c.bytes("chroma")).concat()),
        "intra_activity" => one("activity", [pvop_encode::intra_activity(&luma(c))]),
        "estimate_motion" | "estimate_motion_4mv" => search(c),
        "inter_cbp" => patterns(&c.bytes("counts")),
        "macroblock_residual" | "code_macroblock" | "step" => coded(c),
        "code_predicted_macroblock" | "step_predicted" => coded(c),
        "open" | "next_place" | "close" => of_run(c),
        _ => of_levels(c),
    }
}

fn one<T: Into<i128>>(name: &'static str, area: impl IntoIterator<Item = T>) -> Areas {
    Areas::from([(name, area.into_iter().map(Into::into).collect())])
}

impl Call {
    fn size_of(&self, name: &str) -> usize {
        self.number(name) as usize
    }

    fn signed(&self, name: &str) -> i32 {
        self.number(name) as i32
    }

    fn byte(&self, name: &str) -> u8 {
        self.number(name) as u8
    }
}

fn split<T: Into<i128>>((whole, part): (i32, T), name: &'static str) -> Areas {
    Areas::from([("whole", vec![whole.into()]), (name, vec![part.into()])])
}

fn pixel(c: &Call) -> u8 {
    let [a, b, d, e] = ["a", "b", "c", "d"].map(|name| c.byte(name));
    let (half_x, half_y) = (c.number("half_x") != 0, c.number("half_y") != 0);
    half_sample::interpolate_pixel(a, b, d, e, half_x, half_y, c.byte("rounding"))
}

/// Half or quarter samples, by the call's mode or by the entry. A chroma vector's bits do not count.
fn mode(c: &Call) -> BVopSampleMode {
    let bits = if c.has("bits_per_pixel") { Some(c.number("bits_per_pixel") as u32) } else { None };
    let number = if c.has("mode") { c.number("mode") as u32 } else { bits.is_some().into() };
    BVopSampleMode::of(number, bits.unwrap_or(8))
}

/// Calls `told` with the reference.
fn with_reference<T>(c: &Call, told: impl Fn(&ReferenceVop) -> T) -> T {
    let samples = c.bytes("samples");
    let sides = (c.size_of("width"), c.size_of("height"), c.size_of("stride"));
    let vop = ReferenceVop::with_stride(&samples, sides.0, sides.1, sides.2)
        .expect("the original takes every reference within the bounds");
    told(&vop)
}

fn block(c: &Call) -> Vec<u8> {
    let (x, y) = (c.signed("mv_x"), c.signed("mv_y"));
    let (left, top) = (c.signed("origin_x"), c.signed("origin_y"));
    let (w, h, rounding) = (c.size_of("block_w"), c.size_of("block_h"), c.byte("rounding"));
    with_reference(c, |vop| match mode(c) {
        BVopSampleMode::HalfPel => {
            half_sample::interpolate_block(vop, x, y, left, top, w, h, rounding)
        }
        BVopSampleMode::QuarterPel { bits_per_pixel: bits } => {
            quarter_sample::interpolate_block_qpel(vop, x, y, left, top, w, h, rounding, bits)
        }
    })
}

/// What a call moves a macroblock by: one vector or four.
fn motion(c: &Call) -> PvopMbMotion {
    match c.has("mv_x") {
        true => PvopMbMotion::one(c.signed("mv_x"), c.signed("mv_y")),
        false => PvopMbMotion::four(&c.words("vectors").try_into().expect("eight parts")),
    }
}

fn luma_by_motion(c: &Call) -> [u8; 256] {
    let (left, top) = (c.signed("origin_x"), c.signed("origin_y"));
    let (rounding, mode) = (c.byte("rounding"), mode(c));
    let told = |vop: &ReferenceVop| {
        predict_luma_macroblock(motion(c), vop, left, top, rounding, mode)
    };
    with_reference(c, told).expect("vectors always give a prediction")
}

fn chroma_vector(c: &Call) -> [i32; 2] {
    let MotionVector { x, y } = predicted::chroma_vector(mode(c), motion(c));
    [x, y]
}

/// The macroblock's luma, Cb and Cr, predicted from the reference's three planes.
fn made(c: &Call, motion: PvopMbMotion) -> [Vec<u8>; 3] {
    let [luma, width, height] = reference(c).expect("a reference");
    let [y, cb, cr] = [luma, "ref_cb", "ref_cr"].map(|name| c.bytes(name));
    let (width, height, stride) = (c.size_of(width), c.size_of(height), c.size_of("stride"));
    let luma = Reference { samples: &y, width, height, stride };
    let chroma_stride = c.size_of("chroma_stride");
    let planes = Planes::new(&ReferencePlanes { luma, cb: &cb, cr: &cr, chroma_stride });
    let Samples { y, cb, cr } = planes.predict(mode(c), motion, place(c), c.byte("rounding"));
    [y.to_vec(), cb.to_vec(), cr.to_vec()]
}

/// A place may lie beyond 32 bits here, where the original's cannot; it is as far outside.
fn fetched(c: &Call, x: i128, y: i128) -> u8 {
    let near = |at: i128| at.clamp(i32::MIN.into(), i32::MAX.into()) as i32;
    with_reference(c, |vop| vop.fetch_clamped(near(x), near(y)))
}

fn copied(c: &Call) -> Vec<u8> {
    let (width, height) = (c.number("block_w"), c.number("block_h"));
    let (x, y) = (c.number("x"), c.number("y"));
    let row = |j: i128| (0..width).map(move |i| fetched(c, x + i, y + j));
    (0..height).flat_map(row).collect()
}

/// Luma of the macroblock at the call's place.
fn luma(c: &Call) -> [[i32; 16]; 16] {
    let y = c.bytes(if c.areas.contains_key("source") { "source" } else { "y" });
    let frame = FrameView { y: &y, cb: &[], cr: &[], ..sizes(c) };
    pvop_encode::source_luma_mb(&frame, c.size_of("row"), c.size_of("column"))
}

fn sizes(c: &Call) -> FrameView<'static> {
    let (width, height) = (c.size_of("width"), c.size_of("height"));
    FrameView { y: &[], cb: &[], cr: &[], width, height }
}

/// The block of a chroma plane.
fn frame(c: &Call, chroma: &[u8]) -> [[i32; 8]; 8] {
    let frame = FrameView { y: &[], cb: chroma, cr: &[], ..sizes(c) };
    frame.block(c.size_of("row"), c.size_of("column"), 4)
}

fn of_levels(c: &Call) -> Areas {
    let name = if c.areas.contains_key("residual") { "residual" } else { "levels" };
    match c.entry {
        "inter_scan" => {
            let both = c.number("interlaced") != 0 && c.number("alternate_scan") != 0;
            one("scan", [if both { 1 } else { 2 }])
        }
        "forward_dct_8x8" => one("out", forward_dct_8x8(&rows_of(&c.words(name)), 8).concat()),
        "quantise_block" => one("out", quantised(c)),
        "inverse_block" => {
            let q = c.number("quantiser") as u32;
            let back = |x| saturate_fprime(inverse_quant_method2_coef(x, q), 8);
            one("out", c.words(name).into_iter().map(back))
        }
        "forward_scan" => {
            let order = scan_of(c.number("scan") as u32);
            one("out", ivop_encode::forward_scan(&rows_of(&c.words(name)), order))
        }
        "inverse_scan" => {
            let levels: [i32; 64] = c.words(name).try_into().expect("64 levels");
            one("out", scan::inverse_scan(&levels, scan_of(c.number("scan") as u32)).concat())
        }
        "levels_to_events" => {
            let levels: [i32; 64] = c.words(name).try_into().expect("64 levels");
            laid_out(&[ivop_encode::qfs_to_events(&levels, 0)], "out_levels", "count")
        }
        "quantise_inter_block" => laid_out(&events(c), "levels", "count"),
        "quantise_inter_residual" => laid_out(&events(c), "levels", "counts"),
        other => panic!("no answer of {other}"),
    }
}

fn quantised(c: &Call) -> Vec<i32> {
    let (q, weights) = (c.number("quantiser") as u32, c.bytes("weights"));
    let first = c.number("first_method") != 0;
    let one = |(i, x): (usize, i32)| match first {
        true => quantise_method1_inter(x, weights[i], q),
        false => quantise_method2_inter(x, q),
    };
    c.words("coefficients").into_iter().enumerate().map(one).collect()
}

/// The events of each block of 64 residuals.
fn events(c: &Call) -> Vec<Vec<AcEvent>> {
    let (q, first) = (c.number("quantiser") as u32, c.number("first_method") != 0);
    let (weights, order) = (rows_of(&c.bytes("weights")), scan_of(c.number("scan") as u32));
    let blocks: Vec<[[i32; 8]; 8]> = c.words("residual").chunks(64).map(rows_of).collect();
    if let [block] = blocks.as_slice() {
        return vec![pvop_encode::quantise_inter_block(block, q, first, &weights, order).0];
    }
    let luma = std::array::from_fn(|j| {
        std::array::from_fn(|i| blocks[j / 8 * 2 + i / 8][j % 8][i % 8])
    });
    pvop_encode::quantise_inter_residual(&luma, &blocks[4], &blocks[5], q, first, &weights, order)
}

/// Events in areas of 64 a block, 0 after the events, and how many each block has.
fn laid_out(blocks: &[Vec<AcEvent>], levels: &'static str, counts: &'static str) -> Areas {
    let mut areas = Areas::new();
    let laid = |part: fn(&AcEvent) -> i128| {
        let block = move |all: &Vec<AcEvent>| {
            let mut area: Vec<i128> = all.iter().map(part).collect();
            area.resize(64, 0);
            area
        };
        blocks.iter().flat_map(block).collect::<Vec<i128>>()
    };
    areas.insert("lasts", laid(|event| event.last.into()));
    areas.insert("runs", laid(|event| event.run.into()));
    areas.insert(levels, laid(|event| event.level.into()));
    areas.insert(counts, blocks.iter().map(|all| all.len() as i128).collect());
    areas
}

fn patterns(counts: &[u8]) -> Areas {
    let event = AcEvent { last: false, run: 0, level: 1 };
    let blocks: Vec<Vec<AcEvent>> = counts.iter().map(|&n| vec![event; n.into()]).collect();
    let (luma, chroma) = pvop_encode::inter_cbp(&blocks);
    one("patterns", [luma, chroma])
}

/// Calls `told` with what a call says of its search, at its own place or at the run's.
fn with_search<T>(c: &Call, told: impl Fn(Search) -> T) -> T {
    let samples = c.bytes(if c.areas.contains_key("source") { "source" } else { "y" });
    let (width, height) = (c.size_of("width"), c.size_of("height"));
    let (column, row) = place(c);
    let part = |name| if c.has(name) { c.size_of(name) } else { 1 };
    let reference = reference(c).map_or(vec![0], |[luma, ..]| c.bytes(luma));
    let number = |name| if c.has(name) { c.number(name) as u32 } else { 1 };
    told(Search {
        source: Source { samples: &samples, width, height },
        column,
        row,
        reference: Reference {
            samples: &reference,
            width: part("ref_width"),
            height: part("ref_height"),
            stride: part("stride"),
        },
        mode: number("mode"),
        bits_per_pixel: number("bits_per_pixel"),
        fcode: number("fcode"),
    })
}

fn place(c: &Call) -> (usize, usize) {
    if c.has("column") {
        return (c.size_of("column"), c.size_of("row"));
    }
    let (columns, next) = (macroblocks(c.number("width")), c.run()[2] as i128);
    ((next % columns) as usize, (next / columns) as usize)
}

/// Each vector's two parts, and each one's sum by the originals' own function of one block.
fn found(place: &Place, vectors: &[MotionVector], total: u32) -> (Vec<i128>, Vec<i128>) {
    let part = |i| if vectors.len() == 1 { Part::Whole } else { Part::Block(i) };
    let sum = |(i, &vector)| place.vector_sum(part(i), vector);
    let sums: Vec<u32> = vectors.iter().enumerate().map(sum).collect();
    assert_eq!(total, sums.iter().sum::<u32>(), "the total of the original's sums");
    let parts = vectors.iter().flat_map(|v| [v.x.into(), v.y.into()]).collect();
    (parts, sums.into_iter().map(Into::into).collect())
}

fn search(c: &Call) -> Areas {
    with_search(c, |search| {
        let place = Place::new(&search);
        if c.entry == "estimate_motion" {
            let (vector, sum) = place.one();
            let vector = vec![vector.x.into(), vector.y.into()];
            return Areas::from([("vector", vector), ("sum", vec![sum.into()])]);
        }
        let seed = MotionVector { x: c.signed("seed_x"), y: c.signed("seed_y") };
        let (vectors, total) = place.four(seed);
        let (vectors, sums) = found(&place, &vectors, total);
        Areas::from([("vectors", vectors), ("sums", sums)])
    })
}

/// What a macroblock is coded against: lent, or made by the vectors that the original finds.
fn coded_against(c: &Call) -> [Vec<u8>; 3] {
    if c.areas.contains_key("pred_y") {
        return ["pred_y", "pred_cb", "pred_cr"].map(|name| c.bytes(name));
    }
    let vectors = c.number("vectors") as u32;
    made(c, with_search(c, |search| predicted::found(&search, vectors)))
}

fn coded(c: &Call) -> Areas {
    let [cb, cr] = &["cb", "cr"].map(|name| c.bytes(name));
    let [pred_y, pred_cb, pred_cr] = &coded_against(c);
    let whole = c.entry != "macroblock_residual";
    let weights = if whole { c.bytes("weights") } else { vec![16; 64] };
    let number = |name| if whole { c.number(name) as u32 } else { 1 };
    with_search(c, |search| {
        let coder = Coder::new(&Coding {
            search,
            vectors: number("vectors"),
            cb,
            cr,
            prediction: Prediction { y: pred_y, cb: pred_cb, cr: pred_cr },
            quantising: Quantising {
                quantiser: number("quantiser"),
                first_method: number("first_method") as u8,
                weights: &weights,
                scan: number("scan"),
            },
        });
        match c.entry {
            "macroblock_residual" => one("out", coder.six_residuals()),
            _ => record(c, &coder),
        }
    })
}

/// What the entry that searches and codes leaves, and the run after a step.
fn record(c: &Call, coder: &Coder) -> Areas {
    let told = coder.code();
    let mut areas = laid_out(&told.events, "levels", "counts");
    let (four_vectors, four_sums) = match &told.four {
        Some((vectors, total)) => found(&coder.place, vectors, *total),
        None => (vec![0; 8], vec![0; 4]),
    };
    areas.insert("vector", vec![told.vector.x.into(), told.vector.y.into()]);
    areas.insert("sum", vec![told.sum.into()]);
    areas.insert("four_vectors", four_vectors);
    areas.insert("four_sums", four_sums);
    areas.insert("patterns", vec![told.patterns.0.into(), told.patterns.1.into()]);
    if is_step(c) {
        let mut run = c.run();
        run[2] = run[2].wrapping_add(1);
        run[3] = run[3].wrapping_add(told.events.iter().map(|all| all.len() as u64).sum());
        run[4] = run[4].wrapping_add(told.sum.into());
        areas.insert("run", run.map(Into::into).to_vec());
    }
    areas
}

/// A picture without columns has all its macroblocks in one row.
fn of_run(c: &Call) -> Areas {
    if c.entry == "open" {
        return one("run", [c.number("width"), c.number("height"), 0, 0, 0]);
    }
    let run = c.run();
    if c.entry == "close" {
        return one("totals", [run[2], run[3], run[4]]);
    }
    match macroblocks(run[0].into()) {
        0 => one("place", [run[2], 0]),
        columns => one("place", [run[2] as i128 % columns, run[2] as i128 / columns]),
    }
}
