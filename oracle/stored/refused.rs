//! Calls that are turned back: each number of an entry alone, every way that its arguments have, and
//! each two numbers together, so that their order shows.

use super::call::Call;
use super::reasons::{is_step, reasons};
use super::spoil::ways;

/// The numbers of an entry, in the order in which they are looked at.
pub fn numbers(entry: &str) -> &'static [u8] {
    match entry {
        "interpolate_block_into" => &[4, 5, 8, 12, 14],
        "interpolate_block_qpel_into" => &[3, 4, 5, 8, 12, 14],
        "fetch_clamped" => &[4, 5],
        "copy_block" => &[4, 5, 12],
        "predict_luma_block" => &[2, 3, 4, 5, 8, 12, 14, 31],
        "predict_luma_macroblock" | "predict_luma_macroblock_4mv" => &[2, 3, 4, 5, 8, 12, 31],
        "chroma_vector" | "chroma_vector_4mv" => &[2, 8],
        "predict_macroblock" | "predict_macroblock_4mv" => &[2, 3, 4, 5, 8, 12, 31],
        "forward_dct_8x8" | "levels_to_events" => &[12, 13],
        "quantise_block" => &[10, 11, 12, 13],
        "inverse_block" => &[10, 12, 13],
        "forward_scan" | "inverse_scan" => &[12, 13, 14],
        "source_luma_block" | "source_chroma_block" | "macroblock_residual" => &[6, 7, 8, 12],
        "estimate_motion" => &[1, 2, 3, 4, 5, 6, 7, 8, 12],
        "estimate_motion_4mv" => &[1, 2, 3, 4, 5, 6, 7, 8, 9, 12],
        "intra_activity" => &[6, 7, 8],
        "quantise_inter_block" | "quantise_inter_residual" => &[10, 11, 12, 13, 14],
        "code_macroblock" => &[1, 2, 3, 4, 5, 6, 7, 8, 10, 11, 12, 14],
        "code_predicted_macroblock" => &[1, 2, 3, 4, 5, 6, 7, 8, 10, 11, 12, 14, 31],
        "open" => &[6],
        "step" => &[21, 22, 1, 2, 3, 4, 5, 6, 7, 10, 11, 12, 14],
        "step_predicted" => &[21, 22, 1, 2, 3, 4, 5, 6, 7, 10, 11, 12, 14, 31],
        "close" => &[23],
        _ => &[],
    }
}

/// A mode that is none is not quarter mode. A step's bad side takes planes of a bad side, since the
/// run has to have it too: with the run's numbers alone, the others are `code_macroblock`'s.
fn left_out(sound: &Call, first: u8, second: u8) -> bool {
    (first, second) == (2, 3) || is_step(sound) && first < 21 && [first, second].contains(&6)
}

/// Entries whose calls are long, and whose parts are entries of their own: the first way of
/// a number and the last.
const LONG: [&str; 5] = [
    "quantise_inter_residual",
    "code_macroblock",
    "step",
    "code_predicted_macroblock",
    "step_predicted",
];

pub fn calls(entry: &str, sound: &Call) -> Vec<Call> {
    let numbers = numbers(entry);
    let mut all = Vec::new();
    for (i, &first) in numbers.iter().enumerate() {
        all.extend(alone(sound, first));
        for &second in &numbers[i + 1..] {
            if !left_out(sound, first, second) {
                all.push(together(sound, first, second));
            }
        }
        if first == 4 && sound.has("chroma_stride") {
            all.push(chroma_before_luma(sound));
        }
    }
    all
}

/// Every 4 comes before any 5: chroma's stride beside luma without a sample.
fn chroma_before_luma(sound: &Call) -> Call {
    let no_luma = ways(sound, 5).swap_remove(1);
    let both = ways(&no_luma, 4).pop().expect("a stride of chroma");
    assert_eq!(reasons(&both), [4, 5], "{both:?}");
    both
}

fn alone(sound: &Call, number: u8) -> Vec<Call> {
    let mut all = ways(sound, number);
    all.retain(|call| reasons(call) == [number]);
    assert!(!all.is_empty(), "{number} alone of {}", sound.entry);
    if LONG.contains(&sound.entry) && number != 12 && all.len() > 2 {
        all.drain(1..all.len() - 1);
    }
    all
}

/// Two ways that give both numbers and none before them, in a short call with few other reasons.
fn together(sound: &Call, first: u8, second: u8) -> Call {
    let mut pairs: Vec<Call> = Vec::new();
    for (a, b) in [(first, second), (second, first)] {
        for once in ways(sound, a) {
            pairs.extend(ways(&once, b));
        }
    }
    pairs.retain(|call| {
        let found = reasons(call);
        found.first() == Some(&first) && found.contains(&second)
    });
    let long = |call: &Call| call.areas.values().map(Vec::len).sum::<usize>();
    let few = |call: &Call| reasons(call).len();
    let best = pairs.into_iter().min_by_key(|call| (long(call) / 64, few(call)));
    best.unwrap_or_else(|| panic!("{first} and {second} of {}", sound.entry))
}
