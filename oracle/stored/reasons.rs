//! The rules' two lists of what is turned back, over the arguments that a call has: all that
//! apply, in order. The reply is the first, or 0 where there is none.

use super::call::Call;

pub fn reasons(c: &Call) -> Vec<u8> {
    let all = [
        (21, is_step(c) && !left(c)),
        (22, is_step(c) && other_sizes(c)),
        (23, c.entry == "close" && left(c)),
        (1, outside(c, "fcode", 1, 7)),
        (2, outside(c, "mode", 0, 1)),
        (3, quarter(c) && outside(c, "bits_per_pixel", 1, 8)),
        (4, bad_geometry(c)),
        (5, few_samples(c)),
        (6, of_source(c) && (outside(c, "width", 1, 4096) || outside(c, "height", 1, 4096))),
        (7, of_source(c) && short_plane(c)),
        (8, beyond_source(c) || far_block(c)),
        (9, far_seed(c)),
        (10, outside(c, "quantiser", 1, 31)),
        (11, c.has("first_method") && c.number("first_method") != 0 && c.area("weights").contains(&0)),
        (12, other_length(c)),
        (13, beyond_range(c)),
        (14, bad_choice(c)),
        (31, !keeps_low_bit(c) && outside(c, "rounding", 0, 1)),
    ];
    all.iter().filter(|reason| reason.1).map(|reason| reason.0).collect()
}

fn outside(c: &Call, name: &str, low: i128, high: i128) -> bool {
    c.has(name) && !(low..=high).contains(&c.number(name))
}

pub fn is_step(c: &Call) -> bool {
    c.entry.starts_with("step")
}

/// Of a rounding type the interpolations take the low bit, whatever the others are.
fn keeps_low_bit(c: &Call) -> bool {
    c.entry.starts_with("interpolate")
}

pub fn macroblocks(side: i128) -> i128 {
    (side + 15) / 16
}

/// Whether the run has a macroblock left.
fn left(c: &Call) -> bool {
    let run = c.run().map(i128::from);
    run[2] < macroblocks(run[0]) * macroblocks(run[1])
}

fn other_sizes(c: &Call) -> bool {
    let run = c.run().map(i128::from);
    (run[0], run[1]) != (c.number("width"), c.number("height"))
}

/// Bits per pixel count where there is no mode to say otherwise.
fn quarter(c: &Call) -> bool {
    !c.has("mode") || c.number("mode") == 1
}

/// The names of a reference's luma, width and height.
pub fn reference(c: &Call) -> Option<[&'static str; 3]> {
    let read = |name: &&str| c.areas.contains_key(name);
    let luma = ["reference", "samples", "ref_y"].into_iter().find(read)?;
    Some(match c.has("ref_width") {
        true => [luma, "ref_width", "ref_height"],
        false => [luma, "width", "height"],
    })
}

/// Whether `width` and `height` are a source's.
pub fn of_source(c: &Call) -> bool {
    c.has("width") && (c.has("ref_width") || !c.has("stride"))
}

/// A plane of the reference, as the call has it.
pub struct Plane {
    pub name: &'static str,
    width: i128,
    height: i128,
    stride: i128,
}

impl Plane {
    fn bad_geometry(&self) -> bool {
        let side = |n| !(1..=4096).contains(&n);
        side(self.width) || side(self.height) || !(self.width..=8192).contains(&self.stride)
    }

    /// A side of 0 is a bad geometry, which is looked at before, and counts as 1.
    pub fn last_sample(&self) -> i128 {
        (self.height - 1).max(0) * self.stride + (self.width - 1).max(0)
    }
}

/// Luma, and Cb and Cr where the call has them.
pub fn reference_planes(c: &Call) -> Vec<Plane> {
    let Some([name, width, height]) = reference(c) else {
        return Vec::new();
    };
    let (width, height) = (c.number(width), c.number(height));
    let mut all = vec![Plane { name, width, height, stride: c.number("stride") }];
    if c.has("chroma_stride") {
        let (width, height, stride) = ((width + 1) / 2, (height + 1) / 2, c.number("chroma_stride"));
        all.extend(["ref_cb", "ref_cr"].map(|name| Plane { name, width, height, stride }));
    }
    all
}

fn bad_geometry(c: &Call) -> bool {
    reference_planes(c).iter().any(Plane::bad_geometry)
}

fn few_samples(c: &Call) -> bool {
    reference_planes(c).iter().any(|p| c.area(p.name).len() as i128 <= p.last_sample())
}

/// The source's planes that a call has, each with its least length.
pub fn planes(c: &Call) -> Vec<(&'static str, i128)> {
    let (width, height) = (c.number("width"), c.number("height"));
    let chroma = (width + 1) / 2 * ((height + 1) / 2);
    let luma = width * height;
    let all =
        [("source", luma), ("y", luma), ("cb", chroma), ("cr", chroma), ("chroma", chroma)];
    all.into_iter().filter(|plane| c.areas.contains_key(plane.0)).collect()
}

fn short_plane(c: &Call) -> bool {
    planes(c).iter().any(|&(name, least)| (c.area(name).len() as i128) < least)
}

fn beyond_source(c: &Call) -> bool {
    let past = |at, side| c.number(at) >= macroblocks(c.number(side));
    of_source(c) && c.has("column") && (past("column", "width") || past("row", "height"))
}

/// The vectors of the blocks that are predicted, each with its block's place in the macroblock.
fn predicted(c: &Call) -> Vec<(i128, i128, [i128; 2])> {
    if let Some(all) = c.areas.get("vectors") {
        let block = |b: usize| (b as i128 % 2 * 8, b as i128 / 2 * 8, [all[2 * b], all[2 * b + 1]]);
        return (0..4).map(block).collect();
    }
    match c.has("mv_x") {
        true => vec![(0, 0, [c.number("mv_x"), c.number("mv_y")])],
        false => Vec::new(),
    }
}

/// The corner of what is predicted: as the call has it, or that of its macroblock. A chroma vector
/// has none.
fn corner(c: &Call) -> [i128; 2] {
    match (c.has("origin_x"), c.has("column")) {
        (true, _) => [c.number("origin_x"), c.number("origin_y")],
        (_, true) => [16 * c.number("column"), 16 * c.number("row")],
        _ => [0, 0],
    }
}

fn far_block(c: &Call) -> bool {
    let [left, top] = corner(c);
    let far = |at: i128| !(-4096..=4096).contains(&at);
    let long = |v: i128| !(-2048..=2047).contains(&v);
    predicted(c).iter().any(|&(right, down, vector)| {
        far(left + right) || far(top + down) || vector.into_iter().any(long)
    })
}

/// For an fcode that is none the range of the nearest counts: 1 comes before.
fn far_seed(c: &Call) -> bool {
    if !c.has("seed_x") {
        return false;
    }
    let range = 32 << (c.number("fcode").clamp(1, 7) - 1);
    outside(c, "seed_x", -range, range - 1) || outside(c, "seed_y", -range, range - 1)
}

/// How long an area has to be, if there is such a length.
pub fn wanted(c: &Call, name: &str) -> Option<i128> {
    let events = match c.entry {
        "levels_to_events" | "quantise_inter_block" => 64,
        _ => 384,
    };
    Some(match (name, c.entry) {
        ("out", _) if c.has("block_w") => c.number("block_w") * c.number("block_h"),
        ("out", "predict_luma_macroblock" | "predict_luma_macroblock_4mv" | "source_luma_block") => 256,
        ("out", "macroblock_residual") => 384,
        ("residual", "quantise_inter_residual") => 384,
        ("levels", "inverse_block" | "forward_scan" | "inverse_scan" | "levels_to_events") => 64,
        ("lasts" | "runs" | "levels" | "out_levels", _) => events,
        ("out" | "residual" | "coefficients" | "weights" | "pred_cb" | "pred_cr", _) => 64,
        ("pred_y", _) => 256,
        ("y", "predict_macroblock" | "predict_macroblock_4mv") => 256,
        ("cb" | "cr", "predict_macroblock" | "predict_macroblock_4mv") => 64,
        ("vector", _) => 2,
        ("sum", _) => 1,
        ("vectors", "estimate_motion_4mv") => 8,
        ("sums", _) => 4,
        _ => return None,
    })
}

fn other_length(c: &Call) -> bool {
    let read = c.areas.iter().map(|(&name, area)| (name, area.len()));
    let lent = c.lens.iter().map(|(&name, &len)| (name, len));
    read.chain(lent).any(|(name, len)| wanted(c, name).is_some_and(|n| n != len as i128))
}

/// What is read that has a range, with its least and its greatest.
pub const RANGES: [(&str, i128, i128); 3] =
    [("residual", -255, 255), ("coefficients", -2048, 2047), ("levels", -2047, 2047)];

fn beyond_range(c: &Call) -> bool {
    RANGES.iter().any(|&(name, low, high)| {
        c.areas.get(name).is_some_and(|all| all.iter().any(|x| !(low..=high).contains(x)))
    })
}

fn bad_choice(c: &Call) -> bool {
    let none_of = |name, good: &[i128]| c.has(name) && !good.contains(&c.number(name));
    let sides = c.has("origin_x") && (none_of("block_w", &[8, 16]) || none_of("block_h", &[8, 16]));
    sides || none_of("scan", &[0, 1, 2]) || none_of("vectors", &[1, 4])
}
