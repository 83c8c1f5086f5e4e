//! What can be wrong with a reference's three planes: refusals 4 and 5 written from the list and
//! independent of the library, random damage, and counts of which planes a call is refused for.

use super::{bad_geometry, beyond_32_bits, cut, geometry, last_sample};
use crate::ask::{chroma_planes, Reference, ReferencePlanes};
use crate::counted::{held, strings, Mark};
use crate::random::Random;

/// 4 of any plane, then 5 of any.
pub fn reasons(r: &ReferencePlanes) -> [(u8, bool); 2] {
    let [luma, chroma] = bad_sizes(r);
    [(4, luma || chroma), (5, short(r).contains(&true))]
}

/// 4, of luma and of chroma.
fn bad_sizes(r: &ReferencePlanes) -> [bool; 2] {
    [bad_geometry(&r.luma), bad_geometry(&chroma_planes(r)[0])]
}

/// 5, of luma, Cb and Cr.
fn short(r: &ReferencePlanes) -> [bool; 3] {
    let [cb, cr] = chroma_planes(r);
    [r.luma, cb, cr].map(|plane| plane.samples.len() as u128 <= last_sample(&plane))
}

/// Luma's sides or stride outside their bounds, or the chroma stride.
pub fn sizes(r: &mut ReferencePlanes, random: &mut Random) {
    if random.chance(50) {
        return geometry(&mut r.luma, random);
    }
    let width = r.luma.width.div_ceil(2);
    let less = random.size(0, width.clamp(1, 4096) - 1);
    let far = random.pick(&[usize::MAX, 1 << 63, 1 << 31, beyond_32_bits(width)]);
    let more = random.size(8193, 9000);
    r.chroma_stride = random.pick(&[less, less, width.max(1) - 1, 8193, more, far]);
}

/// One plane or more with too few samples.
pub fn samples(r: &mut ReferencePlanes, random: &mut Random) {
    let which = random.pick(&[1, 2, 4, 3, 5, 6, 7]);
    let [mut cb, mut cr] = chroma_planes(r);
    for (plane, part) in [(&mut r.luma, 1), (&mut cb, 2), (&mut cr, 4)] {
        if which & part != 0 {
            cut(plane, random);
        }
    }
    (r.cb, r.cr) = (cb.samples, cr.samples);
}

pub const REFUSED: &str = "4 and 5 of planes";

const NAMES: [&str; 8] = [
    "4 of luma",
    "4 of chroma alone",
    "5 of luma alone",
    "5 of Cb alone",
    "5 of Cr alone",
    "4 of chroma alone before 5 of luma",
    "4 of luma before 5 of chroma alone",
    "4 of chroma alone before 5 of chroma alone",
];

/// All that is counted of damaged calls.
pub fn all() -> (&'static str, Vec<String>) {
    (REFUSED, strings(&NAMES))
}

/// What a call whose first reason is this number counts for.
pub fn marks(r: &ReferencePlanes, first: u8) -> Vec<Mark> {
    let ([luma, chroma], short) = (bad_sizes(r), short(r));
    let other = chroma && !luma;
    let without_luma = !short[0] && short != [false; 3];
    let (four, five) = (first == 4, first == 5);
    let is = [
        four && luma,
        four && other,
        five && short == [true, false, false],
        five && short == [false, true, false],
        five && short == [false, false, true],
        four && other && short[0],
        four && luma && without_luma,
        four && other && without_luma,
    ];
    held(REFUSED, NAMES.into_iter().zip(is).collect())
}

/// A reference as text, samples of long planes cut short.
pub fn text(r: &ReferencePlanes) -> String {
    let Reference { samples, width, height, stride } = r.luma;
    let most = |samples: &[u8]| samples[..samples.len().min(1 << 16)].to_vec();
    let lines = crate::macroblock::lent::lines;
    format!("width: {width}, height: {height}, stride: {stride}\n")
        + &format!("chroma_stride: {}\n", r.chroma_stride)
        + &lines("ref_y", &most(samples), stride)
        + &lines("ref_cb", &most(r.cb), r.chroma_stride)
        + &lines("ref_cr", &most(r.cr), r.chroma_stride)
}
