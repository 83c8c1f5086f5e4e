//! Replays the calls of crates/compare/data/calls, whose answers are the original Rust's: each by
//! `hencouch::raw` and by the crate's safe function. Reply, answer and lent areas have to be the
//! stored ones; a refused call has to leave every area as it was.
//!
//! docs/STORED.md says how a call is stored.

mod calls;
mod levels;
mod macroblocks;
mod predicted;
mod runs;
mod samples;
mod searches;

use calls::Calls;
use std::collections::BTreeSet;

/// An entry: its name in the header, how its calls are replayed, and its refusals.
type Entry = (&'static str, fn(&mut Calls), &'static [u8]);

/// In the order of include/hencouch.h, which numbers them from 1.
const ENTRIES: [Entry; 37] = [
    ("interpolate_block_into", samples::interpolate_block_into, &[4, 5, 8, 12, 14]),
    ("interpolate_block_qpel_into", samples::interpolate_block_qpel_into, &[3, 4, 5, 8, 12, 14]),
    ("interpolate_pixel", samples::interpolate_pixel, &[]),
    ("split_half_pel", samples::split_half_pel, &[]),
    ("split_quarter_pel", samples::split_quarter_pel, &[]),
    ("fetch_clamped", samples::fetch_clamped, &[4, 5]),
    ("copy_block", samples::copy_block, &[4, 5, 12]),
    ("predict_luma_block", samples::predict_luma_block, &[2, 3, 4, 5, 8, 12, 14, 31]),
    ("predict_luma_macroblock", samples::predict_luma_macroblock, &[2, 3, 4, 5, 8, 12, 31]),
    ("predict_luma_macroblock_4mv", samples::predict_luma_macroblock_4mv, &[2, 3, 4, 5, 8, 12, 31]),
    ("forward_dct_8x8", levels::forward_dct_8x8, &[12, 13]),
    ("quantise_block", levels::quantise_block, &[10, 11, 12, 13]),
    ("inverse_block", levels::inverse_block, &[10, 12, 13]),
    ("forward_scan", levels::forward_scan, &[12, 13, 14]),
    ("inverse_scan", levels::inverse_scan, &[12, 13, 14]),
    ("levels_to_events", levels::levels_to_events, &[12, 13]),
    ("inter_scan", levels::inter_scan, &[]),
    ("source_luma_block", searches::source_luma_block, &[6, 7, 8, 12]),
    ("source_chroma_block", searches::source_chroma_block, &[6, 7, 8, 12]),
    ("estimate_motion", searches::estimate_motion, &[1, 2, 3, 4, 5, 6, 7, 8, 12]),
    ("estimate_motion_4mv", searches::estimate_motion_4mv, &[1, 2, 3, 4, 5, 6, 7, 8, 9, 12]),
    ("intra_activity", macroblocks::intra_activity, &[6, 7, 8]),
    ("macroblock_residual", macroblocks::macroblock_residual, &[6, 7, 8, 12]),
    ("quantise_inter_block", macroblocks::quantise_inter_block, &[10, 11, 12, 13, 14]),
    ("quantise_inter_residual", macroblocks::quantise_inter_residual, &[10, 11, 12, 13, 14]),
    ("inter_cbp", macroblocks::inter_cbp, &[]),
    ("code_macroblock", macroblocks::code_macroblock, &[1, 2, 3, 4, 5, 6, 7, 8, 10, 11, 12, 14]),
    ("open", runs::open, &[6]),
    ("next_place", runs::next_place, &[]),
    ("step", runs::step, &[1, 2, 3, 4, 5, 6, 7, 10, 11, 12, 14, 21, 22]),
    ("close", runs::close, &[23]),
    ("chroma_vector", predicted::chroma_vector, &[2, 8]),
    ("chroma_vector_4mv", predicted::chroma_vector_4mv, &[2, 8]),
    ("predict_macroblock", predicted::predict_macroblock, &[2, 3, 4, 5, 8, 12, 31]),
    ("predict_macroblock_4mv", predicted::predict_macroblock_4mv, &[2, 3, 4, 5, 8, 12, 31]),
    (
        "code_predicted_macroblock",
        predicted::code_predicted_macroblock,
        &[1, 2, 3, 4, 5, 6, 7, 8, 10, 11, 12, 14, 31],
    ),
    (
        "step_predicted",
        predicted::step_predicted,
        &[1, 2, 3, 4, 5, 6, 7, 10, 11, 12, 14, 21, 22, 31],
    ),
];

#[test]
fn the_stored_calls_are_answered_as_stored() {
    let path = concat!(env!("CARGO_MANIFEST_DIR"), "/../../crates/compare/data/calls");
    let bytes = std::fs::read(path).unwrap_or_else(|why| panic!("{path}: {why}"));
    let mut calls = Calls::new(&bytes);
    let mut replies = vec![Vec::new(); ENTRIES.len()];
    while let Some(number) = calls.next() {
        let at = usize::from(number) - 1;
        assert!(at < ENTRIES.len(), "there is no entry {number}");
        let (name, replay, _) = ENTRIES[at];
        calls.name = name;
        replay(&mut calls);
        replies[at].push(calls.reply);
    }
    assert!(calls.at_end(), "bytes are left over after the last call");
    for ((name, _, refusals), replies) in ENTRIES.iter().zip(replies) {
        let done = replies.iter().filter(|&&reply| reply == 0).count();
        println!("{name}: {done} done, {} refused", replies.len() - done);
        assert!(done > 0, "no stored call of {name} is done");
        let mut seen: BTreeSet<u8> = replies.into_iter().collect();
        seen.remove(&0);
        let listed: BTreeSet<u8> = refusals.iter().copied().collect();
        assert_eq!(seen, listed, "the refusals of {name}, stored and listed");
    }
}
