//! What is counted of a valid call: names under titles.

use super::call::Call;
use super::refusal::farthest;
use super::{forms, Count};
use crate::ask::{chroma_planes, Reference};
use crate::counted::{held, strings, Counted, Mark};
use crate::damage::last_sample;
use crate::motion::MotionVector;
use crate::predicted::{chroma_vector, Samples};
use crate::sample::plane::SHAPES;

const PLANES: &str = "planes";
const SETTINGS: &str = "mode and rounding type";
const LUMA: &str = "luma's fractions";
const CHROMA: &str = "chroma's halves";
const SIDES: &str = "sides and strides";
const PLACES: &str = "places";
const VECTORS: &str = "vectors";
const TOLD_FROM: &str = "told from";

const SIDE_NAMES: [&str; 8] = [
    "1 x 1",
    "both even",
    "odd width",
    "odd height",
    "chroma stride its width",
    "chroma stride above its width",
    "chroma stride as luma's",
    "chroma longer than needed",
];
const PLACE_NAMES: [&str; 4] = ["inside", "across an edge", "beyond", "as far as may be"];
const VECTOR_NAMES: [&str; 4] = ["least", "greatest", "all chroma outside", "all different"];

/// A wrong form that so many calls told from the right one is not tried any more.
const OFTEN: usize = 1_000;

/// Every title with every name.
pub fn all(count: Count) -> Vec<(&'static str, Vec<String>)> {
    let places = |units: usize| (0..units * units).map(move |k| (units, k / units, k % units));
    let fractions = places(2).chain(places(4)).map(|(u, x, y)| format!("{x},{y} of {u}"));
    let mut vectors = strings(&VECTOR_NAMES);
    if count == Count::One {
        vectors.pop();
    }
    vec![
        (PLANES, strings(&SHAPES)),
        (SETTINGS, strings(&["0 0", "0 1", "1 0", "1 1"])),
        (LUMA, fractions.collect()),
        (CHROMA, strings(&["0,0", "0,1", "1,0", "1,1"])),
        (SIDES, strings(&SIDE_NAMES)),
        (PLACES, strings(&PLACE_NAMES)),
        (VECTORS, vectors),
        (TOLD_FROM, strings(&forms::names(count))),
    ]
}

/// The names that a call counts for.
pub fn of(call: &Call, shape: usize) -> Vec<Mark> {
    let told = call.told();
    let chroma = chroma_vector(told.mode, told.motion);
    let mut all = vec![
        (PLANES, SHAPES[shape].to_string()),
        (SETTINGS, format!("{} {}", call.mode, call.rounding)),
        (CHROMA, format!("{},{}", chroma.x & 1, chroma.y & 1)),
    ];
    let units = 2 << call.mode;
    for vector in call.parts[..call.count.parts()].chunks(2) {
        let [x, y] = [vector[0], vector[1]].map(|part| part.rem_euclid(units));
        all.push((LUMA, format!("{x},{y} of {units}")));
    }
    all.extend(held(SIDES, sides(call)));
    all.push((PLACES, lies(call).to_string()));
    let most = farthest(call.count);
    let far = call.column == most || call.row == most;
    all.extend(held(PLACES, vec![("as far as may be", far)]));
    all.extend(held(VECTORS, vectors(call, chroma)));
    all
}

/// Counts the wrong forms that would have shown.
pub fn count_forms(call: &Call, wanted: &Samples, counted: &mut Counted) {
    let one = MotionVector { x: call.parts[0], y: call.parts[1] };
    for name in forms::names(call.count) {
        if counted.so_far(TOLD_FROM, name) < OFTEN
            && call.told().wrong(name, one, wanted).is_some_and(|samples| samples != *wanted)
        {
            counted.add(TOLD_FROM, name);
        }
    }
}

fn sides(call: &Call) -> Vec<(&'static str, bool)> {
    let Reference { width, height, stride, .. } = call.reference.luma;
    let [cb, cr] = chroma_planes(&call.reference);
    let longer = |plane: &Reference| plane.samples.len() as u128 > last_sample(plane) + 1;
    let is = [
        (width, height) == (1, 1),
        width % 2 == 0 && height % 2 == 0,
        width % 2 == 1,
        height % 2 == 1,
        cb.stride == cb.width,
        cb.stride > cb.width,
        cb.stride == stride && stride > cb.width,
        longer(&cb) || longer(&cr),
    ];
    SIDE_NAMES.into_iter().zip(is).collect()
}

/// Where the macroblock lies in the reference.
fn lies(call: &Call) -> &'static str {
    let Reference { width, height, .. } = call.reference.luma;
    let (x, y) = (16 * call.column, 16 * call.row);
    if x >= width || y >= height {
        "beyond"
    } else if x + 16 <= width && y + 16 <= height {
        "inside"
    } else {
        "across an edge"
    }
}

fn vectors(call: &Call, chroma: MotionVector) -> Vec<(&'static str, bool)> {
    let own = &call.parts[..call.count.parts()];
    let plane = chroma_planes(&call.reference)[0];
    let outside = |place: usize, part: i32, side: usize| {
        let start = 8 * place as i32 + (part >> 1);
        start + 8 < 0 || start >= side as i32
    };
    let pairs: Vec<&[i32]> = own.chunks(2).collect();
    let different = (0..pairs.len()).all(|i| !pairs[..i].contains(&pairs[i]));
    let is = [
        own.contains(&-2048),
        own.contains(&2047),
        outside(call.column, chroma.x, plane.width) || outside(call.row, chroma.y, plane.height),
        call.count == Count::Four && different,
    ];
    VECTOR_NAMES.into_iter().zip(is).collect()
}
