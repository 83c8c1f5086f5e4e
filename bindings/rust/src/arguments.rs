//! What calls are told. All numbers go to the library as they are, and it judges them: nothing is
//! refused here.

/// The mode of half samples, as [`Mode`] has it.
pub const HALF: u32 = 0;
/// The mode of quarter samples, as [`Mode`] has it.
pub const QUARTER: u32 = 1;

/// The alternate horizontal scan.
pub const ALTERNATE_HORIZONTAL: u32 = 0;
/// The alternate vertical scan.
pub const ALTERNATE_VERTICAL: u32 = 1;
/// The zigzag scan.
pub const ZIGZAG: u32 = 2;

/// Weights for the second method, which wants 64 and reads none of them.
pub const NO_WEIGHTS: [u8; 64] = [16; 64];

/// A reference plane: `samples`, rows `stride` apart. Coordinates outside it are clamped into it.
///
/// Refused: 4 where a side is not 1 to 4,096 or the stride not width to 8,192, 5 where `samples` is
/// not longer than (height - 1) * stride + width - 1.
#[derive(Clone, Copy, Debug)]
pub struct Reference<'a> {
    /// Row by row, `stride` apart.
    pub samples: &'a [u8],
    /// In samples.
    pub width: usize,
    /// In samples.
    pub height: usize,
    /// From a row's first sample to the next row's.
    pub stride: usize,
}

/// A reference's three planes. Chroma's sides are half of luma's, rounded up; one stride is both's.
/// Coordinates outside a plane are clamped into it.
///
/// Refused: 4 as [`Reference`] says of luma and where `chroma_stride` is not from chroma's width to
/// 8,192; 5 as [`Reference`] says, of each plane with its own sides and stride. Every 4 comes before
/// any 5.
#[derive(Clone, Copy, Debug)]
pub struct ReferencePlanes<'a> {
    /// Luma, whose sides fix chroma's.
    pub luma: Reference<'a>,
    /// Blue chroma.
    pub cb: &'a [u8],
    /// Red chroma.
    pub cr: &'a [u8],
    /// From a chroma row's first sample to the next row's.
    pub chroma_stride: usize,
}

/// The picture that is coded, its rows following each other directly. Chroma's sides are half of
/// luma's, rounded up. Blocks past the right or bottom repeat the last column or row.
///
/// Refused: 6 where a side is not 1 to 4,096, 7 where a plane that is read is shorter than its width
/// times its height.
#[derive(Clone, Copy, Debug)]
pub struct Source<'a> {
    /// Luma.
    pub y: &'a [u8],
    /// Blue chroma.
    pub cb: &'a [u8],
    /// Red chroma.
    pub cr: &'a [u8],
    /// In luma samples.
    pub width: usize,
    /// In luma samples.
    pub height: usize,
}

impl<'a> Source<'a> {
    /// A picture without chroma, for the functions that read luma alone.
    pub const fn luma(y: &'a [u8], width: usize, height: usize) -> Self {
        Source { y, cb: &[], cr: &[], width, height }
    }
}

/// A macroblock's place in the source. Refused: 8 where it is not in the source.
#[derive(Clone, Copy, Debug, PartialEq, Eq)]
pub struct Place {
    /// In macroblocks, from 0.
    pub column: usize,
    /// In macroblocks, from 0.
    pub row: usize,
}

/// Whole samples from a plane's first.
#[derive(Clone, Copy, Debug, PartialEq, Eq)]
pub struct Point {
    /// To the right.
    pub x: i32,
    /// Down.
    pub y: i32,
}

/// In half or quarter samples, as the mode has it.
#[derive(Clone, Copy, Debug, Default, PartialEq, Eq)]
pub struct MotionVector {
    /// Horizontal.
    pub x: i32,
    /// Vertical.
    pub y: i32,
}

/// Half samples, or quarter samples at so many bits per pixel.
///
/// Refused: 2 where `mode` is neither [`HALF`] nor [`QUARTER`], 3 where it is [`QUARTER`] and
/// `bits_per_pixel` not 1 to 8.
///
/// ```
/// use hencouch::{Mode, QUARTER};
///
/// assert_eq!(Mode::quarter(8), Mode { mode: QUARTER, bits_per_pixel: 8 });
/// ```
#[derive(Clone, Copy, Debug, PartialEq, Eq)]
pub struct Mode {
    /// [`HALF`] or [`QUARTER`].
    pub mode: u32,
    /// Counts in quarter samples only.
    pub bits_per_pixel: u32,
}

impl Mode {
    /// Half samples.
    pub const HALF: Mode = Mode { mode: HALF, bits_per_pixel: 8 };

    /// Quarter samples.
    pub const fn quarter(bits_per_pixel: u32) -> Mode {
        Mode { mode: QUARTER, bits_per_pixel }
    }
}

/// What a macroblock is coded against, row by row. Refused: 12 where `y` is not 256 long or `cb` or
/// `cr` not 64.
#[derive(Clone, Copy, Debug)]
pub struct Prediction<'a> {
    /// 16 x 16 luma samples.
    pub y: &'a [u8],
    /// 8 x 8 samples of blue chroma.
    pub cb: &'a [u8],
    /// 8 x 8 samples of red chroma.
    pub cr: &'a [u8],
}

/// How a residual becomes events.
///
/// Refused: 10 where the quantiser is not 1 to 31, 11 where a weight of the first method is 0, 12
/// where there are not 64 weights, 14 where the scan is not 0 to 2.
#[derive(Clone, Copy, Debug)]
pub struct Quantising<'a> {
    /// 1 to 31.
    pub quantiser: u32,
    /// Whether by the first method, which weighs each place, or by the second.
    pub first_method: bool,
    /// The first method's matrix; under the second there have to be 64 of them too.
    pub weights: &'a [u8],
    /// [`ALTERNATE_HORIZONTAL`], [`ALTERNATE_VERTICAL`] or [`ZIGZAG`].
    pub scan: u32,
}

impl Quantising<'_> {
    /// The second method, in zigzag order.
    pub const fn second_method(quantiser: u32) -> Quantising<'static> {
        Quantising { quantiser, first_method: false, weights: &NO_WEIGHTS, scan: ZIGZAG }
    }
}
