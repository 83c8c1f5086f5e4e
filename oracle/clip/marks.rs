//! What is counted of the runs: all of it has to come up.

use super::moving::Moving;
use super::{cut, damage};
use crate::counted::{held, strings, Mark};
use crate::macroblock::predicted;
use crate::search::contents::KINDS;

pub const RUNS: &str = "runs";
pub const CUTS: &str = "cuts";
pub const PIPES: &str = "input";
pub const REFUSALS: &str = "refusals";
pub const AFTER: &str = "refused after";
pub const LINES: &str = "lines equal";

const SETTINGS: &str = "vectors, mode and fcode";
const QUANTISERS: &str = "quantisers";
const SIDES: &str = "sides";
const PICTURES: &str = "pictures";
const PREDICTIONS: &str = "predictions";
const FOUND: &str = "found";

const SIDE_NAMES: [&str; 9] = [
    "1x1",
    "1xN",
    "Nx1",
    "both multiples of 16",
    "width no multiple of 16",
    "height no multiple of 16",
    "odd",
    "above 48",
    "176x144",
];
const FOUND_NAMES: [&str; 4] =
    ["a vector below 0", "a sum of 0", "no events", "more than 99 events"];

/// Every title with every name.
pub fn all() -> Vec<(&'static str, Vec<String>)> {
    let mut settings = Vec::new();
    for vectors in ["one", "four"] {
        for mode in ["half", "quarter"] {
            settings.extend((1..=7).map(|fcode| format!("{vectors} {mode} {fcode}")));
        }
    }
    let runs = [&["whole", "left over", "cut"][..], &damage::KINDS].concat();
    vec![
        (RUNS, strings(&runs)),
        (CUTS, strings(&cut::NAMES)),
        (PIPES, strings(&["at once", "in pieces"])),
        (REFUSALS, strings(&["1", "2", "6", "10", "12", "14"])),
        (AFTER, strings(&["no line", "some lines"])),
        (LINES, strings(&["one vector", "four vectors"])),
        (SETTINGS, settings),
        (QUANTISERS, strings(&["1", "even", "odd above 1", "31"])),
        (SIDES, strings(&SIDE_NAMES)),
        (PICTURES, KINDS.iter().map(|kind| format!("{kind:?}")).collect()),
        (PREDICTIONS, predicted::KINDS.iter().map(|kind| format!("{kind:?}")).collect()),
        (FOUND, strings(&FOUND_NAMES)),
    ]
}

/// The names that a whole clip counts for, with its output.
pub fn of(clip: &Moving, text: &str) -> Vec<Mark> {
    let header = &clip.header;
    let vectors = if header.vectors == 4 { "four" } else { "one" };
    let mode = ["half", "quarter"][usize::from(header.mode)];
    let mut all = vec![
        (SETTINGS, format!("{vectors} {mode} {}", header.fcode)),
        (PICTURES, format!("{:?}", clip.kind)),
    ];
    all.extend(clip.predictions.iter().map(|kind| (PREDICTIONS, format!("{kind:?}"))));
    let quantisers = vec![
        ("1", header.quantiser == 1),
        ("even", header.quantiser.is_multiple_of(2)),
        ("odd above 1", header.quantiser % 2 == 1 && header.quantiser > 1),
        ("31", header.quantiser == 31),
    ];
    all.extend(held(QUANTISERS, quantisers));
    all.extend(held(SIDES, sides(header.sides())));
    for line in text.lines() {
        all.extend(held(FOUND, found(line)));
    }
    all
}

fn sides((width, height): (usize, usize)) -> Vec<(&'static str, bool)> {
    let held = [
        (width, height) == (1, 1),
        width == 1 && height > 1,
        width > 1 && height == 1,
        width % 16 == 0 && height % 16 == 0,
        width % 16 != 0,
        height % 16 != 0,
        width % 2 == 1 || height % 2 == 1,
        width > 48 || height > 48,
        (width, height) == (176, 144),
    ];
    SIDE_NAMES.into_iter().zip(held).collect()
}

fn found(line: &str) -> Vec<(&'static str, bool)> {
    let words: Vec<i64> = line.split(' ').filter_map(|word| word.parse().ok()).collect();
    let held = [words[2] < 0 || words[3] < 0, words[4] == 0, words[7] == 0, words[7] > 99];
    FOUND_NAMES.into_iter().zip(held).collect()
}
