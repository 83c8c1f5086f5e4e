//! What is counted of a valid call, beside what is counted of its search.

use super::call::{Answer, Call, Form};
use super::forms;
use super::still::Still;
use super::Against;
use crate::counted::{held, strings, Mark};
use crate::macroblock::predicted::KINDS;
use crate::predicted::chroma_vector;
use crate::search::call::{self, Function};
use crate::search::marks;

const SETTINGS: &str = "method, scan and vectors";
const QUANTISERS: &str = "quantisers";
const PREDICTIONS: &str = "predictions";
const MADE: &str = "mode, rounding type and vectors";
const CHROMA: &str = "chroma's halves";
const PATTERNS: &str = "patterns";
const BLOCKS: &str = "blocks";
const SIDES: &str = "sides";
const FOUR: &str = "four vectors";

const BLOCK_NAMES: [&str; 6] = ["no events", "one event", "64 events", "run 63", "2,047", "-2,047"];
const SIDE_NAMES: [&str; 7] = [
    "multiples of 16",
    "width no multiple of 16",
    "height no multiple of 16",
    "odd width",
    "odd height",
    "reference of another size",
    "reference's no multiple of 16",
];
const FOUR_NAMES: [&str; 4] = ["all the one vector", "one other", "all different", "sum below"];

/// Every title with every name.
pub fn all(form: Form) -> Vec<(&'static str, Vec<String>)> {
    let mut settings = Vec::new();
    for method in ["first", "second"] {
        for vectors in ["one", "four"] {
            settings.extend((0..3).map(|scan| format!("{method} {scan} {vectors}")));
        }
    }
    let bits = ["Y0", "Y1", "Y2", "Y3", "Cb", "Cr"];
    let patterns = bits.iter().flat_map(|b| ["clear", "set"].map(|is| format!("{b} {is}")));
    let mut all = marks::all(Function::One);
    all.retain(|line| line.0 != marks::TOLD_FROM);
    all.extend([
        (SETTINGS, settings),
        (QUANTISERS, strings(&["1", "even", "odd above 1", "31"])),
        (PATTERNS, patterns.collect()),
        (BLOCKS, strings(&BLOCK_NAMES)),
        (SIDES, strings(&SIDE_NAMES)),
        (FOUR, strings(&FOUR_NAMES)),
        (forms::TOLD_FROM, strings(&forms::names(form))),
    ]);
    if form == Form::Lent {
        all.push((PREDICTIONS, KINDS.iter().map(|kind| format!("{kind:?}")).collect()));
        return all;
    }
    let made = ["0 0", "0 1", "1 0", "1 1"].into_iter();
    all.push((MADE, made.flat_map(|m| ["one", "four"].map(|v| format!("{m} {v}"))).collect()));
    all.push((CHROMA, strings(&["0,0", "0,1", "1,0", "1,1"])));
    all.push((forms::PREDICTION, strings(&forms::predictions())));
    all
}

/// The names that a call counts for.
pub fn of(call: &Call, still: &Still, against: &Against, answer: &Answer) -> Vec<Mark> {
    let q = &call.coding.quantising;
    let search = call::Call::new(Function::One, call.coding.search, (0, 0));
    let one = call::Answer { vectors: answer.vector.to_vec(), sums: vec![answer.sum] };
    let mut all = marks::of(&search, &still.scene, &one);
    let method = if q.first_method != 0 { "first" } else { "second" };
    let vectors = if call.coding.vectors == 4 { "four" } else { "one" };
    all.push((SETTINGS, format!("{method} {} {vectors}", q.scan)));
    match against {
        Against::Lent(predicted) => all.push((PREDICTIONS, format!("{:?}", predicted.kind))),
        Against::Made(told, _) => {
            let chroma = chroma_vector(told.mode, told.motion);
            let mode = call.coding.search.mode;
            all.push((MADE, format!("{mode} {} {vectors}", told.rounding)));
            all.push((CHROMA, format!("{},{}", chroma.x & 1, chroma.y & 1)));
        }
    }
    let quantisers = vec![
        ("1", q.quantiser == 1),
        ("even", q.quantiser.is_multiple_of(2)),
        ("odd above 1", q.quantiser % 2 == 1 && q.quantiser > 1),
        ("31", q.quantiser == 31),
    ];
    all.extend(held(QUANTISERS, quantisers));
    let [luma, chroma] = answer.patterns;
    let bits = [("Y0", luma & 8), ("Y1", luma & 4), ("Y2", luma & 2), ("Y3", luma & 1)];
    for (name, bit) in bits.into_iter().chain([("Cb", chroma & 2), ("Cr", chroma & 1)]) {
        all.push((PATTERNS, format!("{name} {}", if bit == 0 { "clear" } else { "set" })));
    }
    all.extend(held(BLOCKS, blocks(answer)));
    all.extend(held(SIDES, sides(call)));
    if call.coding.vectors == 4 {
        all.extend(held(FOUR, four(answer)));
    }
    all
}

fn blocks(answer: &Answer) -> Vec<(&'static str, bool)> {
    let events = &answer.events;
    let held = [
        events.counts.contains(&0),
        events.counts.contains(&1),
        events.counts.contains(&64),
        events.runs.contains(&63),
        events.levels.contains(&2047),
        events.levels.contains(&-2047),
    ];
    BLOCK_NAMES.into_iter().zip(held).collect()
}

fn sides(call: &Call) -> Vec<(&'static str, bool)> {
    let (source, r) = (&call.coding.search.source, &call.coding.search.reference);
    let held = [
        source.width % 16 == 0 && source.height % 16 == 0,
        source.width % 16 != 0,
        source.height % 16 != 0,
        source.width % 2 == 1,
        source.height % 2 == 1,
        (source.width, source.height) != (r.width, r.height),
        r.width % 16 != 0 || r.height % 16 != 0,
    ];
    SIDE_NAMES.into_iter().zip(held).collect()
}

fn four(answer: &Answer) -> Vec<(&'static str, bool)> {
    let pairs: Vec<&[i32]> = answer.four_vectors.chunks(2).collect();
    let same = pairs.iter().filter(|&&pair| pair == answer.vector).count();
    let held = [
        same == 4,
        same == 3,
        (0..4).all(|i| !pairs[..i].contains(&pairs[i])),
        answer.four_sums.iter().sum::<u32>() < answer.sum,
    ];
    FOUR_NAMES.into_iter().zip(held).collect()
}
