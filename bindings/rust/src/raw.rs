//! Every C entry, argument by argument, in the order of `include/hencouch.h`, and all of the crate
//! that is `unsafe`. Each function here answers as its entry does: 0, or the number of the refusal.
//!
//! What the entry takes as a pointer and a length is a slice, whose length is handed over as it is:
//! a wrong one is refused with 12. What it takes as a bare pointer is a reference to a number or to
//! an array of the declared length. No two of them overlap where one is written, since they are
//! borrowed. So every call is sound, and every reply of the entry can be had here.
//!
//! These declarations, `include/hencouch.h` and the library's own functions are kept alike by hand,
//! and a test holds them to each other.
//!
//! ```
//! let residual = [1; 64];
//! let mut out = [0; 64];
//! assert_eq!(hencouch::raw::forward_dct_8x8(&residual, &mut out), 0);
//! assert_eq!(out[..2], [8, 0]);
//! assert_eq!(hencouch::raw::forward_dct_8x8(&residual[..63], &mut out), 12);
//! ```

// Numbers of the library's `size_t` and `uint64_t` pass for each other.
const _: () = assert!(usize::BITS == 64, "the library is for x86-64");

#[link(name = "hencouch", kind = "static")]
extern "C" {}

/// Declares an entry, and the function that calls it: what the entry `reads` or `writes` with a
/// length is a slice, and any other argument is handed over as it is.
macro_rules! entry {
    (@ [$($doc:tt)*] $name:ident $symbol:ident [$($c:tt)*] [$($safe:tt)*] [$($pass:tt)*]) => {
        $($doc)*
        #[inline]
        #[allow(clippy::too_many_arguments)]
        pub fn $name($($safe)*) -> u8 {
            extern "C" {
                fn $symbol($($c)*) -> u8;
            }
            // SAFETY: each pointer is a live slice's, handed over with its length, or a live
            // reference to as many elements as the entry is declared to take. The entry reads and
            // writes within them alone, keeps none of them, and judges every number itself.
            unsafe { $symbol($($pass)*) }
        }
    };
    (@ $doc:tt $name:ident $symbol:ident [$($c:tt)*] [$($safe:tt)*] [$($pass:tt)*]
        reads $area:ident: $sort:ty, $($rest:tt)*) => {
        entry!(@ $doc $name $symbol [$($c)* $area: *const $sort, _: usize,]
            [$($safe)* $area: &[$sort],] [$($pass)* $area.as_ptr(), $area.len(),] $($rest)*);
    };
    (@ $doc:tt $name:ident $symbol:ident [$($c:tt)*] [$($safe:tt)*] [$($pass:tt)*]
        writes $area:ident: $sort:ty, $($rest:tt)*) => {
        entry!(@ $doc $name $symbol [$($c)* $area: *mut $sort, _: usize,]
            [$($safe)* $area: &mut [$sort],] [$($pass)* $area.as_mut_ptr(), $area.len(),]
            $($rest)*);
    };
    (@ $doc:tt $name:ident $symbol:ident [$($c:tt)*] [$($safe:tt)*] [$($pass:tt)*]
        $number:ident: $sort:ty $(, $($rest:tt)*)?) => {
        entry!(@ $doc $name $symbol [$($c)* $number: $sort,]
            [$($safe)* $number: $sort,] [$($pass)* $number,] $($($rest)*)?);
    };
    ($(#[$doc:meta])* $name:ident = $symbol:ident { $($arguments:tt)* }) => {
        entry!(@ [$(#[$doc])*] $name $symbol [] [] [] $($arguments)*);
    };
}

entry!(
/// [`crate::interpolate_block_into`]'s entry: 4, 5, 8, 12, 14.
interpolate_block_into = hencouch_interpolate_block_into {
    reads samples: u8, width: usize, height: usize, stride: usize,
    mv_x: i32, mv_y: i32, origin_x: i32, origin_y: i32,
    block_w: usize, block_h: usize, rounding: u8,
    writes out: u8,
});

entry!(
/// [`crate::interpolate_block_qpel_into`]'s entry: 3, 4, 5, 8, 12, 14.
interpolate_block_qpel_into = hencouch_interpolate_block_qpel_into {
    reads samples: u8, width: usize, height: usize, stride: usize,
    mv_x: i32, mv_y: i32, origin_x: i32, origin_y: i32,
    block_w: usize, block_h: usize, rounding: u8, bits_per_pixel: u32,
    writes out: u8,
});

entry!(
/// [`crate::interpolate_pixel`]'s entry, which is never refused. Any `half_x` or `half_y` but 0 is a
/// half.
interpolate_pixel = hencouch_interpolate_pixel {
    a: u8, b: u8, c: u8, d: u8, half_x: u8, half_y: u8, rounding: u8, sample: &mut u8
});

entry!(
/// [`crate::split_half_pel`]'s entry, which is never refused.
split_half_pel = hencouch_split_half_pel { mv: i32, whole: &mut i32, half: &mut u8 });

entry!(
/// [`crate::split_quarter_pel`]'s entry, which is never refused.
split_quarter_pel = hencouch_split_quarter_pel { mv: i32, whole: &mut i32, fraction: &mut u8 });

entry!(
/// [`crate::fetch_clamped`]'s entry: 4, 5.
fetch_clamped = hencouch_fetch_clamped {
    reads samples: u8, width: usize, height: usize, stride: usize, x: i32, y: i32,
    sample: &mut u8
});

entry!(
/// [`crate::copy_block`]'s entry: 4, 5, 12.
copy_block = hencouch_copy_block {
    reads samples: u8, width: usize, height: usize, stride: usize, x: i32, y: i32,
    block_w: usize, block_h: usize, writes out: u8,
});

entry!(
/// [`crate::predict_luma_block`]'s entry: 2, 3, 4, 5, 8, 12, 14, 31.
predict_luma_block = hencouch_predict_luma_block {
    reads samples: u8, width: usize, height: usize, stride: usize,
    mode: u32, bits_per_pixel: u32,
    mv_x: i32, mv_y: i32, origin_x: i32, origin_y: i32,
    block_w: usize, block_h: usize, rounding: u8,
    writes out: u8,
});

entry!(
/// [`crate::predict_luma_macroblock`]'s entry: 2, 3, 4, 5, 8, 12, 31.
predict_luma_macroblock = hencouch_predict_luma_macroblock {
    reads samples: u8, width: usize, height: usize, stride: usize,
    mode: u32, bits_per_pixel: u32,
    mv_x: i32, mv_y: i32, origin_x: i32, origin_y: i32, rounding: u8,
    writes out: u8,
});

entry!(
/// [`crate::predict_luma_macroblock_4mv`]'s entry: 2, 3, 4, 5, 8, 12, 31. Each vector's horizontal,
/// then vertical.
predict_luma_macroblock_4mv = hencouch_predict_luma_macroblock_4mv {
    reads samples: u8, width: usize, height: usize, stride: usize,
    mode: u32, bits_per_pixel: u32,
    vectors: &[i32; 8], origin_x: i32, origin_y: i32, rounding: u8,
    writes out: u8,
});

entry!(
/// [`crate::forward_dct_8x8`]'s entry: 12, 13.
forward_dct_8x8 = hencouch_forward_dct_8x8 { reads residual: i32, writes out: i32, });

entry!(
/// [`crate::quantise_block`]'s entry: 10, 11, 12, 13. Any `first_method` but 0 is the first.
quantise_block = hencouch_quantise_block {
    reads coefficients: i32, quantiser: u32, first_method: u8, reads weights: u8,
    writes out: i32,
});

entry!(
/// [`crate::inverse_block`]'s entry: 10, 12, 13.
inverse_block = hencouch_inverse_block { reads levels: i32, quantiser: u32, writes out: i32, });

entry!(
/// [`crate::forward_scan`]'s entry: 12, 13, 14.
forward_scan = hencouch_forward_scan { reads levels: i32, scan: u32, writes out: i32, });

entry!(
/// [`crate::inverse_scan`]'s entry: 12, 13, 14.
inverse_scan = hencouch_inverse_scan { reads levels: i32, scan: u32, writes out: i32, });

entry!(
/// [`crate::levels_to_events`]'s entry: 12, 13.
levels_to_events = hencouch_levels_to_events {
    reads levels: i32,
    writes lasts: u8, writes runs: u8, writes out_levels: i32, count: &mut u8,
});

entry!(
/// [`crate::inter_scan`]'s entry, which is never refused. Any argument but 0 is set.
inter_scan = hencouch_inter_scan { interlaced: u8, alternate_scan: u8, scan: &mut u32 });

entry!(
/// [`crate::source_luma_block`]'s entry: 6, 7, 8, 12.
source_luma_block = hencouch_source_luma_block {
    reads y: u8, width: usize, height: usize, column: usize, row: usize, writes out: u8,
});

entry!(
/// [`crate::source_chroma_block`]'s entry: 6, 7, 8, 12. Width and height are luma's.
source_chroma_block = hencouch_source_chroma_block {
    reads chroma: u8, width: usize, height: usize, column: usize, row: usize, writes out: u8,
});

entry!(
/// [`crate::estimate_motion`]'s entry: 1 to 8, and 12 where `vector` is not 2 long or `sum` not 1.
estimate_motion = hencouch_estimate_motion {
    reads source: u8, width: usize, height: usize, column: usize, row: usize,
    reads reference: u8, ref_width: usize, ref_height: usize, stride: usize,
    mode: u32, bits_per_pixel: u32, fcode: u32,
    writes vector: i32, writes sum: u32,
});

entry!(
/// [`crate::estimate_motion_4mv`]'s entry: 1 to 9, and 12 where `vectors` is not 8 long or `sums`
/// not 4.
estimate_motion_4mv = hencouch_estimate_motion_4mv {
    reads source: u8, width: usize, height: usize, column: usize, row: usize,
    reads reference: u8, ref_width: usize, ref_height: usize, stride: usize,
    mode: u32, bits_per_pixel: u32, fcode: u32, seed_x: i32, seed_y: i32,
    writes vectors: i32, writes sums: u32,
});

entry!(
/// [`crate::intra_activity`]'s entry: 6, 7, 8.
intra_activity = hencouch_intra_activity {
    reads source: u8, width: usize, height: usize, column: usize, row: usize,
    activity: &mut u32,
});

entry!(
/// [`crate::macroblock_residual`]'s entry: 6, 7, 8, 12.
macroblock_residual = hencouch_macroblock_residual {
    reads y: u8, reads cb: u8, reads cr: u8, width: usize, height: usize,
    column: usize, row: usize,
    reads pred_y: u8, reads pred_cb: u8, reads pred_cr: u8,
    writes out: i32,
});

entry!(
/// [`crate::quantise_inter_block`]'s entry: 10 to 14. Any `first_method` but 0 is the first.
quantise_inter_block = hencouch_quantise_inter_block {
    reads residual: i32, quantiser: u32, first_method: u8, reads weights: u8, scan: u32,
    writes lasts: u8, writes runs: u8, writes levels: i32, count: &mut u8,
});

entry!(
/// [`crate::quantise_inter_residual`]'s entry: 10 to 14. Any `first_method` but 0 is the first.
quantise_inter_residual = hencouch_quantise_inter_residual {
    reads residual: i32, quantiser: u32, first_method: u8, reads weights: u8, scan: u32,
    writes lasts: u8, writes runs: u8, writes levels: i32, counts: &mut [u8; 6],
});

entry!(
/// [`crate::inter_cbp`]'s entry, which is never refused.
inter_cbp = hencouch_inter_cbp { counts: &[u8; 6], patterns: &mut [u8; 2] });

entry!(
/// [`crate::code_macroblock`]'s entry: 1 to 8, 10, 11, 12, 14. Any `first_method` but 0 is the first.
code_macroblock = hencouch_code_macroblock {
    fcode: u32, mode: u32, bits_per_pixel: u32, quantiser: u32, first_method: u8,
    vectors: u32, scan: u32,
    reads reference: u8, ref_width: usize, ref_height: usize, stride: usize,
    reads y: u8, reads cb: u8, reads cr: u8, width: usize, height: usize,
    column: usize, row: usize,
    reads weights: u8, reads pred_y: u8, reads pred_cb: u8, reads pred_cr: u8,
    writes lasts: u8, writes runs: u8, writes levels: i32,
    vector: &mut [i32; 2], sum: &mut u32, four_vectors: &mut [i32; 8], four_sums: &mut [u32; 4],
    patterns: &mut [u8; 2], counts: &mut [u8; 6],
});

entry!(
/// [`crate::Run::open`]'s entry: 6.
open = hencouch_open { width: usize, height: usize, run: &mut [u64; 5] });

entry!(
/// [`crate::Run::next_place`]'s entry, which is never refused: column, row.
next_place = hencouch_next_place { run: &[u64; 5], place: &mut [u64; 2] });

entry!(
/// [`crate::Run::step`]'s entry: 21, 22, then 1 to 7, 10, 11, 12, 14. Any `first_method` but 0 is
/// the first.
step = hencouch_step {
    run: &mut [u64; 5],
    fcode: u32, mode: u32, bits_per_pixel: u32, quantiser: u32, first_method: u8,
    vectors: u32, scan: u32,
    reads reference: u8, ref_width: usize, ref_height: usize, stride: usize,
    reads y: u8, reads cb: u8, reads cr: u8, width: usize, height: usize,
    reads weights: u8, reads pred_y: u8, reads pred_cb: u8, reads pred_cr: u8,
    writes lasts: u8, writes runs: u8, writes levels: i32,
    vector: &mut [i32; 2], sum: &mut u32, four_vectors: &mut [i32; 8], four_sums: &mut [u32; 4],
    patterns: &mut [u8; 2], counts: &mut [u8; 6],
});

entry!(
/// [`crate::Run::close`]'s entry: 23.
close = hencouch_close { run: &[u64; 5], totals: &mut [u64; 3] });

entry!(
/// [`crate::chroma_vector`]'s entry: 2, 8.
chroma_vector = hencouch_chroma_vector {
    mode: u32, mv_x: i32, mv_y: i32, vector: &mut [i32; 2]
});

entry!(
/// [`crate::chroma_vector_4mv`]'s entry: 2, 8. Each vector's horizontal, then vertical.
chroma_vector_4mv = hencouch_chroma_vector_4mv {
    mode: u32, vectors: &[i32; 8], vector: &mut [i32; 2]
});

entry!(
/// [`crate::predict_macroblock`]'s entry: 2, 3, 4, 5, 8, 12, 31. Width, height and stride are luma's.
predict_macroblock = hencouch_predict_macroblock {
    reads ref_y: u8, reads ref_cb: u8, reads ref_cr: u8,
    width: usize, height: usize, stride: usize, chroma_stride: usize,
    mode: u32, bits_per_pixel: u32, mv_x: i32, mv_y: i32,
    column: usize, row: usize, rounding: u8,
    writes y: u8, writes cb: u8, writes cr: u8,
});

entry!(
/// [`crate::predict_macroblock_4mv`]'s entry: 2, 3, 4, 5, 8, 12, 31. Each vector's horizontal, then
/// vertical.
predict_macroblock_4mv = hencouch_predict_macroblock_4mv {
    reads ref_y: u8, reads ref_cb: u8, reads ref_cr: u8,
    width: usize, height: usize, stride: usize, chroma_stride: usize,
    mode: u32, bits_per_pixel: u32, vectors: &[i32; 8],
    column: usize, row: usize, rounding: u8,
    writes y: u8, writes cb: u8, writes cr: u8,
});

entry!(
/// [`crate::code_predicted_macroblock`]'s entry: 1 to 8, 10, 11, 12, 14, 31. Any `first_method` but 0
/// is the first.
code_predicted_macroblock = hencouch_code_predicted_macroblock {
    fcode: u32, mode: u32, bits_per_pixel: u32, quantiser: u32, first_method: u8,
    vectors: u32, scan: u32, rounding: u8,
    reads ref_y: u8, reads ref_cb: u8, reads ref_cr: u8,
    ref_width: usize, ref_height: usize, stride: usize, chroma_stride: usize,
    reads y: u8, reads cb: u8, reads cr: u8, width: usize, height: usize,
    column: usize, row: usize,
    reads weights: u8,
    writes lasts: u8, writes runs: u8, writes levels: i32,
    vector: &mut [i32; 2], sum: &mut u32, four_vectors: &mut [i32; 8], four_sums: &mut [u32; 4],
    patterns: &mut [u8; 2], counts: &mut [u8; 6],
});

entry!(
/// [`crate::Run::step_predicted`]'s entry: 21, 22, then 1 to 7, 10, 11, 12, 14, 31. Any
/// `first_method` but 0 is the first.
step_predicted = hencouch_step_predicted {
    run: &mut [u64; 5],
    fcode: u32, mode: u32, bits_per_pixel: u32, quantiser: u32, first_method: u8,
    vectors: u32, scan: u32, rounding: u8,
    reads ref_y: u8, reads ref_cb: u8, reads ref_cr: u8,
    ref_width: usize, ref_height: usize, stride: usize, chroma_stride: usize,
    reads y: u8, reads cb: u8, reads cr: u8, width: usize, height: usize,
    reads weights: u8,
    writes lasts: u8, writes runs: u8, writes levels: i32,
    vector: &mut [i32; 2], sum: &mut u32, four_vectors: &mut [i32; 8], four_sums: &mut [u32; 4],
    patterns: &mut [u8; 2], counts: &mut [u8; 6],
});
