//! Stands in for a module that quantise.rs and inverse_quant.rs name for intra blocks, which are
//! not compared: it lets the two files compile whole and unchanged.

use crate::texture::DcComponent;

pub fn dc_scaler(_: DcComponent, _: u32) -> u32 {
    unreachable!("only intra blocks have a scaler")
}
