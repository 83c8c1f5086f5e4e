//! The inter macroblock part of an MPEG-4 Visual coder (ISO/IEC 14496-2): safe calls of the static
//! library `libhencouch.a`, whose functions are proved to meet their contracts for every input.
//!
//! Every function takes slices, numbers and structs of them, and whatever is handed in, it answers:
//! with its work done, or with a [`Refusal`], and then nothing that was lent to it is changed.
//! Numbers and lengths go to the library as they are, which judges them. Answers of a fixed size are
//! returned; longer ones fill slices that the caller lends. There is no state between calls but the
//! [`Run`], which the caller keeps; no call allocates, and calls may run at once.
//!
//! | to | there are |
//! |---|---|
//! | read a picture | [`fetch_clamped`], [`copy_block`] of a reference; [`source_luma_block`], [`source_chroma_block`] of the picture that is coded |
//! | predict luma | [`predict_luma_macroblock`], [`predict_luma_macroblock_4mv`], [`predict_luma_block`]; below them [`interpolate_block_into`] and [`interpolate_block_qpel_into`], [`split_half_pel`] and [`split_quarter_pel`], [`interpolate_pixel`] |
//! | predict a macroblock | [`predict_macroblock`], [`predict_macroblock_4mv`]; below them [`chroma_vector`], [`chroma_vector_4mv`] |
//! | search | [`estimate_motion`], [`estimate_motion_4mv`] |
//! | code a block | [`forward_dct_8x8`], [`quantise_block`], [`forward_scan`], [`levels_to_events`]; [`quantise_inter_block`] does all four; [`inter_scan`] chooses the scan |
//! | undo it | [`inverse_scan`], [`inverse_block`] |
//! | code a macroblock | [`macroblock_residual`], [`quantise_inter_residual`], [`inter_cbp`], [`intra_activity`]; [`code_macroblock`] searches and codes, [`code_predicted_macroblock`] also predicts |
//! | code a picture | [`Run::open`], [`Run::next_place`], [`Run::step`], [`Run::step_predicted`], [`Run::close`] |
//!
//! ```
//! use hencouch::{estimate_motion, Mode, MotionVector, Place, Reference, Refusal, Search, Source};
//!
//! let picture: Vec<u8> = (0..64 * 48).map(|k| (k * k % 253) as u8).collect();
//! let search = Search {
//!     source: Source::luma(&picture, 64, 48),
//!     place: Place { column: 2, row: 1 },
//!     reference: Reference { samples: &picture, width: 64, height: 48, stride: 64 },
//!     mode: Mode::quarter(8),
//!     fcode: 1,
//! };
//! let found = estimate_motion(&search)?;
//! assert_eq!((found.vector, found.sum), (MotionVector { x: 0, y: 0 }, 0));
//! # Ok::<(), Refusal>(())
//! ```
//!
//! Linking: the library is taken from the folder `HENCOUCH_LIB_DIR`; without it from where
//! pkg-config has `hencouch` installed; else from `target/staticlib` of the repository that this
//! crate stands in, where `make staticlib` writes it. It is for x86-64.
//!
//! The licence is MIT, as `NOTICE` in the repository has it.

#![deny(missing_docs, unsafe_code)]

mod arguments;
mod events;
mod levels;
mod macroblock;
mod predicted;
mod prediction;
#[allow(unsafe_code)]
pub mod raw;
mod refusal;
mod run;
mod sample;
mod search;

pub use arguments::{
    Mode, MotionVector, Place, Point, Prediction, Quantising, Reference, ReferencePlanes, Source,
    ALTERNATE_HORIZONTAL, ALTERNATE_VERTICAL, HALF, NO_WEIGHTS, QUARTER, ZIGZAG,
};
pub use events::{forward_scan, inter_scan, inverse_scan, levels_to_events, Areas, Events};
pub use levels::{forward_dct_8x8, inverse_block, quantise_block};
pub use macroblock::{
    code_macroblock, code_predicted_macroblock, inter_cbp, intra_activity, macroblock_residual,
    quantise_inter_block, quantise_inter_residual, Patterns, Record, Settings,
};
pub use predicted::{
    chroma_vector, chroma_vector_4mv, predict_macroblock, predict_macroblock_4mv, Predicted,
    PredictionAreas,
};
pub use prediction::{
    predict_luma_block, predict_luma_macroblock, predict_luma_macroblock_4mv, source_chroma_block,
    source_luma_block,
};
pub use refusal::Refusal;
pub use run::{Run, Totals};
pub use sample::{
    copy_block, fetch_clamped, interpolate_block_into, interpolate_block_qpel_into,
    interpolate_pixel, split_half_pel, split_quarter_pel, Block, HalfPel, QuarterPel,
};
pub use search::{estimate_motion, estimate_motion_4mv, Estimated, EstimatedFour, Search};
