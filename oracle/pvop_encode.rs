//! The motion search of the original pvop_encode.rs, and its functions for one macroblock. The file
//! names some dozen modules that are not among the originals, so it cannot be compiled whole: the
//! Makefile cuts these functions out of it by their names, unchanged. `Place` is the way to ask the
//! search, `Coder` the whole that is put together of all.

mod coder;
mod place;

pub use coder::{
    blocks_of, prediction_of, rows_of, scan_number, scan_of, view_of, Blocks, Coded, Coder,
};
pub use place::{luma_view, Part, Place};

use crate::bvop_prediction::BVopSampleMode;
use crate::fdct::forward_dct_8x8;
use crate::ivop_encode::{forward_scan, qfs_to_events, EncoderConfig, FrameView};
use crate::motion::MotionVector;
use crate::pvop_mv::PvopMbMotion;
use crate::quantise::{quantise_method1_inter, quantise_method2_inter};
use crate::scan::ScanType;
use crate::texture::AcEvent;

include!("pvop_encode_cut.rs");
