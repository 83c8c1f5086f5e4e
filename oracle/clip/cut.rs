//! Where an input that is cut short ends.

use crate::broodline::{Header, HEADER, PREDICTION};
use crate::random::Random;

pub const NAMES: [&str; 24] = [
    "header 0",
    "header 1",
    "header 2",
    "header 3",
    "header 4",
    "header 5",
    "header 6",
    "header 7",
    "header's end",
    "in Y",
    "Y's end",
    "in Cb",
    "Cb's end",
    "in Cr",
    "Cr's end",
    "in the reference",
    "reference's end",
    "in a prediction's Y",
    "its Y's end",
    "in its Cb",
    "its Cb's end",
    "in its Cr",
    "macroblock's end",
    "one byte short",
];

/// The planes before the predictions, with their lengths.
fn planes(header: &Header) -> [(&'static str, &'static str, usize); 4] {
    let (luma, chroma) = (header.luma(), header.chroma());
    [
        ("in Y", "Y's end", luma),
        ("in Cb", "Cb's end", chroma),
        ("in Cr", "Cr's end", chroma),
        ("in the reference", "reference's end", luma),
    ]
}

/// The name of a place before an input's end.
pub fn name(header: &Header, at: usize) -> &'static str {
    if at <= HEADER {
        return NAMES[at];
    }
    let mut end = HEADER;
    for (inside, ends, len) in planes(header) {
        end += len;
        if at <= end {
            return if at < end { inside } else { ends };
        }
    }
    let last = end + PREDICTION * header.macroblocks() - 1;
    match (at - end) % PREDICTION {
        _ if at == last => "one byte short",
        0 => "macroblock's end",
        1..=255 => "in a prediction's Y",
        256 => "its Y's end",
        257..=319 => "in its Cb",
        320 => "its Cb's end",
        _ => "in its Cr",
    }
}

/// A place of the kind whose turn it is; where a clip is too small for it, one nearby.
pub fn random(turn: usize, header: &Header, random: &mut Random) -> usize {
    let wanted = NAMES[turn % NAMES.len()];
    let all: usize = planes(header).iter().map(|plane| plane.2).sum();
    let (first, count) = (HEADER + all, header.macroblocks());
    let mut begin = HEADER;
    for (inside, ends, len) in planes(header) {
        if wanted == inside {
            return random.size(begin + usize::from(len > 1), begin + len - 1);
        }
        begin += len;
        if wanted == ends {
            return begin;
        }
    }
    let macroblock = first + PREDICTION * random.size(0, count - 1);
    macroblock
        + match wanted {
            "in a prediction's Y" => random.size(1, 255),
            "its Y's end" => 256,
            "in its Cb" => random.size(257, 319),
            "its Cb's end" => 320,
            "in its Cr" => random.size(321, 383),
            "macroblock's end" => 0,
            "one byte short" => return first + PREDICTION * count - 1,
            _ => return turn % NAMES.len(),
        }
}
