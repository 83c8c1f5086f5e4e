//! Parts of the original ivop_encode.rs: the source picture `FrameView` with its blocks,
//! `EncoderConfig::forced_scan`, and `scan_positions`, `forward_scan` and `qfs_to_events`. The file
//! names some dozen modules that are not among the originals, so it cannot be compiled whole:
//! `cut.sh` cuts these parts out of it by their names, unchanged. `field_dct_luma` is named by a
//! function of `FrameView` that is not compared.

use crate::scan::{inverse_scan, ScanType};
use crate::texture::AcEvent;

/// What `forced_scan` reads of the original's settings, which name types that are not to be had.
pub struct EncoderConfig {
    pub interlaced: bool,
    pub alternate_scan: bool,
}

include!("ivop_encode_cut.rs");
