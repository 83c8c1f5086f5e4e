//! What can be wrong with a call, one number of the rules' lists at a time: every way that its
//! arguments have, each a changed copy of the call.

use super::call::Call;
use super::reasons::{is_step, macroblocks, of_source, planes, reference, reference_planes};
use super::reasons::{wanted, Plane, RANGES};

/// The changed copies for a number; of those some may give other reasons too.
pub fn ways(c: &Call, number: u8) -> Vec<Call> {
    let each = |name, numbers: &[i128]| -> Vec<Call> {
        let present = if c.has(name) { numbers } else { &[] };
        present.iter().map(|&n| c.clone().set(name, n)).collect()
    };
    const MOST: i128 = u32::MAX as i128;
    match number {
        1 => each("fcode", &[0, 8, 257, MOST]),
        2 => each("mode", &[2, 256, MOST]),
        3 => {
            let c = if c.has("mode") { c.clone().set("mode", 1) } else { c.clone() };
            [0, 9, 264, MOST].map(|n| c.clone().set("bits_per_pixel", n)).to_vec()
        }
        4 => geometry(c),
        5 => few_samples(c),
        6 => sides(c),
        7 => short_planes(c),
        8 => place(c),
        9 => seeds(c),
        10 => each("quantiser", &[0, 32, 261, MOST]),
        11 => zero_weights(c),
        12 => lengths(c),
        13 => ranges(c),
        14 => choices(c, each("scan", &[3, 258, MOST]), each("vectors", &[0, 2, 5, 260, MOST])),
        31 => each("rounding", &[2, 128, 255]),
        _ => runs(c, number),
    }
}

/// An area of so many elements: cut, or repeated from its start, or of ones where it is empty.
fn resized(c: &Call, name: &'static str, len: usize) -> Call {
    let mut c = c.clone();
    if let Some(area) = c.areas.get_mut(name) {
        let from = if area.is_empty() { vec![1] } else { area.clone() };
        *area = from.iter().copied().cycle().take(len).collect();
    } else {
        c.lens.insert(name, len);
    }
    c
}

fn geometry(c: &Call) -> Vec<Call> {
    let Some([samples, width, height]) = reference(c) else {
        return Vec::new();
    };
    let of = |w: i128, h: i128, stride: i128, len: usize| {
        let c = resized(c, samples, len).set(width, w).set(height, h).set("stride", stride);
        with_chroma_samples(c)
    };
    let (w, h, stride) = (c.number(width), c.number(height), c.number("stride"));
    let len = c.area(samples).len();
    let mut all = vec![
        of(0, h, stride, len),
        of(w, 0, stride, len),
        of(w, h, w - 1, len),
        of(w, 1, 8193, len),
        of(w, 1, 1 << 63, len),
        of(1, 4097, 1, 4097),
    ];
    // One entry of each kind is enough for the longest row.
    if matches!(c.entry, "fetch_clamped" | "estimate_motion") {
        all.push(of(4097, 1, 4097, 4097));
    }
    all.push(of((1 << 32) + w, h, (1 << 32) + stride, len));
    if c.has("chroma_stride") {
        let low = of(w, 1, stride, len);
        let strides = [(w + 1) / 2 - 1, 8193, 1 << 63, (1 << 32) + w];
        all.extend(strides.map(|n| low.clone().set("chroma_stride", n)));
    }
    all
}

/// Chroma planes that have the samples which a changed height asks for.
fn with_chroma_samples(mut c: Call) -> Call {
    for plane in reference_planes(&c).iter().skip(1) {
        let least = plane.last_sample() + 1;
        if (c.area(plane.name).len() as i128) < least && least < 1 << 12 {
            c = resized(&c, plane.name, least as usize);
        }
    }
    c
}

fn few_samples(c: &Call) -> Vec<Call> {
    let cut = |plane: &Plane| {
        let most = plane.last_sample().min(c.area(plane.name).len() as i128) as usize;
        [resized(c, plane.name, most), resized(c, plane.name, 0)]
    };
    reference_planes(c).iter().flat_map(cut).collect()
}

fn of_sides(c: &Call, width: i128, height: i128) -> Call {
    c.clone().set("width", width).set("height", height)
}

/// A side too long has planes to match, and a run; a side of 0 has no macroblock either.
fn sides(c: &Call) -> Vec<Call> {
    if !of_source(c) {
        return Vec::new();
    }
    let (width, height) = (c.number("width"), c.number("height"));
    let mut long = of_sides(c, 4097, 1);
    for (name, least) in planes(&long) {
        long = resized(&long, name, least as usize);
    }
    if is_step(c) {
        long = long.reads("run", &[4097, 1, 0, 3, 4]);
    }
    let mut all = vec![long, of_sides(c, 0, height), of_sides(c, width, 0), of_sides(c, 1 << 32, 1 << 32)];
    if c.entry == "open" {
        let huge = u64::MAX as i128;
        all.extend([(1, 4097), (huge, 1), (1, huge), (0, 0)].map(|(w, h)| of_sides(c, w, h)));
    }
    all
}

fn short_planes(c: &Call) -> Vec<Call> {
    if !of_source(c) {
        return Vec::new();
    }
    let cut = |(name, least): (&'static str, i128)| {
        let least = least.clamp(1, 1 << 20) as usize;
        [resized(c, name, least - 1), resized(c, name, 0)]
    };
    planes(c).into_iter().flat_map(cut).collect()
}

fn place(c: &Call) -> Vec<Call> {
    let mut all = Vec::new();
    for (name, side) in [("column", "width"), ("row", "height")] {
        if c.has(name) && of_source(c) {
            let first = macroblocks(c.number(side));
            all.extend([first, 1 << 32, u64::MAX as i128].map(|n| c.clone().set(name, n)));
        } else if c.has(name) {
            // The first whose corner is too far, and such whose corner would be 0 in 32 or 64 bits.
            let first = if c.areas.contains_key("vectors") { 256 } else { 257 };
            let far = [first, 1 << 28, 1 << 60, u64::MAX as i128];
            all.extend(far.map(|n| c.clone().set(name, n)));
        }
    }
    let ends = [i32::MIN as i128, i32::MAX as i128];
    for name in ["origin_x", "origin_y"].into_iter().filter(|&name| c.has(name)) {
        let last = if c.areas.contains_key("vectors") { 4089 } else { 4097 };
        all.extend([-4097, last, ends[0], ends[1]].map(|n| c.clone().set(name, n)));
    }
    for name in ["mv_x", "mv_y"].into_iter().filter(|&name| c.has(name)) {
        all.extend([-2049, 2048, ends[0], ends[1]].map(|n| c.clone().set(name, n)));
    }
    for (i, far) in (0..8).zip([-2049, 2048].into_iter().cycle()) {
        let mut one = c.clone();
        if let Some(vectors) = one.areas.get_mut("vectors") {
            vectors[i] = far;
            all.push(one);
        }
    }
    all
}

fn seeds(c: &Call) -> Vec<Call> {
    let range = 32 << (c.number("fcode").clamp(1, 7) - 1);
    let far = [range, -range - 1, i32::MAX as i128, i32::MIN as i128];
    let of = |name| far.map(|n| c.clone().set(name, n));
    of("seed_x").into_iter().chain(of("seed_y")).collect()
}

/// In any place of the matrix, of whatever length.
fn zero_weights(c: &Call) -> Vec<Call> {
    let of = |(i, first): (usize, i128)| {
        let mut c = c.clone().set("first_method", first);
        let weights = c.areas.get_mut("weights").expect("a matrix");
        weights.iter_mut().for_each(|w| *w = (*w).max(1));
        let last = weights.len().checked_sub(1)?;
        weights[i.min(last)] = 0;
        Some(c)
    };
    [(0, 1), (63, 1), (30, 255)].into_iter().filter_map(of).collect()
}

/// Each area that has a length to keep: one more, one less, none.
fn lengths(c: &Call) -> Vec<Call> {
    let names: Vec<&'static str> = c.areas.keys().chain(c.lens.keys()).copied().collect();
    let mut all = Vec::new();
    for (i, name) in names.into_iter().enumerate() {
        if let Some(len) = wanted(c, name) {
            let len = len.clamp(0, 1 << 12) as usize;
            let other = [len + 1, len.saturating_sub(1 + 2 * (i % 2)), 0];
            all.extend(other.iter().take(2 + i % 2).map(|&n| resized(c, name, n)));
        }
    }
    all
}

fn ranges(c: &Call) -> Vec<Call> {
    let mut all = Vec::new();
    for (name, low, high) in RANGES {
        let len = c.areas.get(name).map_or(0, Vec::len);
        if len == 0 {
            continue;
        }
        let ends = [i32::MIN as i128, i32::MAX as i128];
        let beyond = [low - 1, high + 1, ends[0], ends[1], low - 1, high + 1];
        for (x, i) in beyond.into_iter().zip([0, len - 1, len / 2, len / 2 + 1, len - 1, 0]) {
            let mut one = c.clone();
            one.areas.get_mut(name).expect("a range")[i.min(len - 1)] = x;
            all.push(one);
        }
    }
    all
}

fn choices(c: &Call, scans: Vec<Call>, vectors: Vec<Call>) -> Vec<Call> {
    let mut all = Vec::new();
    if c.has("block_w") {
        for (w, h) in [(7, 8), (8, 9), (0, 16), (16, 0), (17, 16), (8, 32), (1, 1), (4, 16)] {
            let sized = c.clone().set("block_w", w).set("block_h", h);
            all.push(resized(&sized, "out", (w * h) as usize));
        }
        all.push(c.clone().set("block_w", (1i128 << 32) + 8));
    }
    all.into_iter().chain(scans).chain(vectors).collect()
}

fn runs(c: &Call, number: u8) -> Vec<Call> {
    let [width, height, ..] = c.run();
    let count = (macroblocks(width.into()) * macroblocks(height.into())) as u64;
    let of = |run: [u64; 3]| c.clone().reads("run", &[run[0], run[1], run[2], 11, 12]);
    match number {
        21 => [count, count + 1, u64::MAX].map(|next| of([width, height, next])).to_vec(),
        22 => [[width + 1, height, 0], [width, height + 1, 0], [height + 5, width, 0], [u64::MAX; 3]]
            .map(of)
            .to_vec(),
        _ => {
            let all = [[16, 16, 0], [176, 144, 98], [1, 17, 1], [u64::MAX, u64::MAX, u64::MAX]];
            all.map(of).to_vec()
        }
    }
}
