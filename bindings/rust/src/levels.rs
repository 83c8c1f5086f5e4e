//! A block's coefficients, its levels, and what levels stand for.

use crate::refusal::done;
use crate::{raw, Refusal};

/// The 8 x 8 forward transform of 64 residuals, eight to a row, at 8 bits: on doubles, rows, then
/// columns; coefficients rounded to nearest, halves away from zero, cut to -2,048 to 2,047.
///
/// Refused: 12 where `residual` or `out` is not 64 long, 13 where a residual is outside -255 to 255.
///
/// ```
/// use hencouch::{forward_dct_8x8, Refusal};
///
/// let mut out = [0; 64];
/// forward_dct_8x8(&[1; 64], &mut out)?;
/// assert_eq!((out[0], &out[1..]), (8, &[0; 63][..]));
///
/// assert_eq!(forward_dct_8x8(&[256; 64], &mut out), Err(Refusal::Range));
/// # Ok::<(), Refusal>(())
/// ```
pub fn forward_dct_8x8(residual: &[i32], out: &mut [i32]) -> Result<(), Refusal> {
    done(raw::forward_dct_8x8(residual, out))
}

/// The levels of 64 coefficients, by the first method or the second. The weights are the first
/// method's matrix; under the second there have to be 64 of them too ([`crate::NO_WEIGHTS`]).
///
/// Refused: 10 where the quantiser is not 1 to 31, 11 where a weight of the first method is 0, 12
/// where a length is not 64, 13 where a coefficient is outside -2,048 to 2,047.
///
/// ```
/// use hencouch::{quantise_block, Refusal, NO_WEIGHTS};
///
/// let mut coefficients = [0; 64];
/// coefficients[..4].copy_from_slice(&[11, 12, -12, 22]);
/// let mut out = [0; 64];
/// quantise_block(&coefficients, 5, false, &NO_WEIGHTS, &mut out)?;
/// assert_eq!(out[..4], [0, 1, -1, 2]);
///
/// let refused = quantise_block(&coefficients, 5, true, &[0; 64], &mut out);
/// assert_eq!(refused, Err(Refusal::Weight));
/// # Ok::<(), Refusal>(())
/// ```
pub fn quantise_block(
    coefficients: &[i32],
    quantiser: u32,
    first_method: bool,
    weights: &[u8],
    out: &mut [i32],
) -> Result<(), Refusal> {
    done(raw::quantise_block(coefficients, quantiser, first_method.into(), weights, out))
}

/// What 64 levels stand for under the second method.
///
/// Refused: 10 where the quantiser is not 1 to 31, 12 where a length is not 64, 13 where a level is
/// outside -2,047 to 2,047.
///
/// ```
/// use hencouch::{inverse_block, Refusal};
///
/// let mut levels = [0; 64];
/// levels[1] = 1;
/// let mut out = [0; 64];
/// inverse_block(&levels, 5, &mut out)?;
/// assert_eq!(out[..2], [0, 15]);
/// inverse_block(&levels, 4, &mut out)?;
/// assert_eq!(out[..2], [0, 11]);
///
/// assert_eq!(inverse_block(&levels, 32, &mut out), Err(Refusal::Quantiser));
/// # Ok::<(), Refusal>(())
/// ```
pub fn inverse_block(levels: &[i32], quantiser: u32, out: &mut [i32]) -> Result<(), Refusal> {
    done(raw::inverse_block(levels, quantiser, out))
}
