//! What is counted of a valid call: names under titles.

use super::call::{Answer, Call, Function};
use super::contents::KINDS;
use super::form;
use super::refusal;
use super::scene::Scene;
use super::shape::SHAPES;
use crate::ask::{Reference, Search};

const SETTINGS: &str = "mode and fcode";
const BITS: &str = "bits per pixel";
const PICTURES: &str = "pictures";
const SIZES: &str = "sizes";
const PLACES: &str = "macroblocks";
const ANSWERS: &str = "answers";
const SEEDS: &str = "seeds";
/// Wrong forms of the search that a call tells from the right one.
pub const TOLD_FROM: &str = "told from";

const ANSWER_NAMES: [&str; 9] = [
    "zero",
    "whole",
    "half",
    "quarter",
    "beyond 8 samples",
    "beyond 256 samples",
    "least",
    "greatest",
    "sum 0",
];

const SEED_NAMES: [&str; 5] =
    ["zero", "negative odd", "at a limit", "beyond the window", "beyond 256 samples"];

/// Every title with every name.
pub fn all(function: Function) -> Vec<(&'static str, Vec<String>)> {
    let strings = |names: &[&str]| names.iter().map(|name| name.to_string()).collect();
    let modes = ["half", "quarter"];
    let settings = modes.iter().flat_map(|m| (1..=7).map(move |f| format!("{m} {f}"))).collect();
    let mut bits: Vec<String> = (1..=8).map(|bits: u32| bits.to_string()).collect();
    bits.extend(strings(&["samples above", "any in half mode"]) as Vec<String>);
    let forms: Vec<&str> = form::wrong(function).iter().map(|form| form.1).collect();
    let mut answers = ANSWER_NAMES.to_vec();
    let mut all = vec![
        (SETTINGS, settings),
        (BITS, bits),
        (PICTURES, KINDS.iter().map(|kind| format!("{kind:?}")).collect()),
        (SIZES, strings(&SHAPES)),
        (PLACES, strings(&["inside", "across the edge", "beyond", "source edge repeated"])),
        (TOLD_FROM, strings(&forms)),
    ];
    if function == Function::Four {
        answers.push("all different");
        all.push((SEEDS, strings(&SEED_NAMES)));
    }
    all.push((ANSWERS, strings(&answers)));
    all
}

/// The names that a call counts for.
pub fn of(call: &Call, scene: &Scene, answer: &Answer) -> Vec<(&'static str, String)> {
    let s = &call.search;
    let mode = if s.mode == 0 { "half" } else { "quarter" };
    let mut marks = vec![
        (SETTINGS, format!("{mode} {}", s.fcode)),
        (PICTURES, format!("{:?}", scene.kind)),
        (SIZES, scene.shape.to_string()),
        (PLACES, lies(s).to_string()),
    ];
    let mut add = |title, names: Vec<(&str, bool)>| {
        let held = names.into_iter().filter(|name| name.1);
        marks.extend(held.map(|name| (title, name.0.to_string())));
    };
    let repeated = 16 * (s.column + 1) > s.source.width || 16 * (s.row + 1) > s.source.height;
    add(PLACES, vec![("source edge repeated", repeated)]);
    add(BITS, bits(s));
    add(ANSWERS, answers(call, answer));
    if call.function == Function::Four {
        add(SEEDS, seeds(call));
    }
    if s.mode == 1 {
        marks.push((BITS, s.bits_per_pixel.to_string()));
    }
    marks
}

fn bits(s: &Search) -> Vec<(&'static str, bool)> {
    let above = |sample: &u8| u32::from(*sample) >> s.bits_per_pixel != 0;
    vec![
        ("samples above", s.mode == 1 && s.reference.samples.iter().any(above)),
        ("any in half mode", s.mode == 0 && !(1..=8).contains(&s.bits_per_pixel)),
    ]
}

/// How many of a vector's units are so many samples.
fn samples(s: &Search, count: i32) -> i32 {
    count * (2 << s.mode)
}

fn answers(call: &Call, answer: &Answer) -> Vec<(&'static str, bool)> {
    let s = &call.search;
    let any = |test: &dyn Fn(i32) -> bool| answer.vectors.iter().any(|&part| test(part));
    let (low, high) = refusal::range(s.fcode);
    let half = samples(s, 1) / 2;
    let pairs: Vec<&[i32]> = answer.vectors.chunks(2).collect();
    vec![
        ("zero", pairs.contains(&&[0, 0][..])),
        ("sum 0", answer.sums.contains(&0)),
        ("beyond 8 samples", any(&|part| part.abs() > samples(s, 8))),
        ("beyond 256 samples", any(&|part| part.abs() > samples(s, 256))),
        ("whole", pairs.iter().any(|pair| pair.iter().all(|part| part % samples(s, 1) == 0))),
        ("half", any(&|part| part % samples(s, 1) != 0 && part % half == 0)),
        ("quarter", any(&|part| part % half != 0)),
        ("least", any(&|part| part == low)),
        ("greatest", any(&|part| part == high)),
        ("all different", all_different(call, &pairs)),
    ]
}

fn all_different(call: &Call, pairs: &[&[i32]]) -> bool {
    let fresh = |i: usize| !pairs[..i].contains(&pairs[i]);
    call.function == Function::Four && (0..pairs.len()).all(fresh)
}

fn seeds(call: &Call) -> Vec<(&'static str, bool)> {
    let s = &call.search;
    let (low, high) = refusal::range(s.fcode);
    let any = |test: &dyn Fn(i32) -> bool| test(call.seed.0) || test(call.seed.1);
    // For fcode 1 the window is 8 samples, and a seed's places reach two samples to either side.
    let beyond = |part: i32| s.fcode == 1 && part.abs() > samples(s, 10);
    vec![
        ("negative odd", any(&|part| part < 0 && part % 2 != 0)),
        ("at a limit", any(&|part| part == low || part == high)),
        ("beyond the window", any(&beyond)),
        ("zero", call.seed == (0, 0)),
        ("beyond 256 samples", any(&|part| part.abs() > samples(s, 256))),
    ]
}

/// Where the macroblock lies in the reference.
fn lies(s: &Search) -> &'static str {
    let Reference { width, height, .. } = s.reference;
    let (x, y) = (16 * s.column, 16 * s.row);
    if x >= width || y >= height {
        "beyond"
    } else if x + 16 <= width && y + 16 <= height {
        "inside"
    } else {
        "across the edge"
    }
}
