//! A macroblock: its activity, its residual, its events, and the entries that search and code.

use crate::refusal::{done, never_refused};
use crate::search::{vector_of, vectors_of};
use crate::{raw, Areas, Mode, MotionVector, Place, Prediction, Quantising};
use crate::{Reference, ReferencePlanes, Refusal, Source};

/// Which blocks have an event.
#[derive(Clone, Copy, Debug, Default, PartialEq, Eq)]
pub struct Patterns {
    /// Block 0 is worth 8, block 3 is worth 1.
    pub luma: u8,
    /// Cb is worth 2, Cr is worth 1.
    pub chroma: u8,
}

/// How [`code_macroblock`], [`code_predicted_macroblock`] and the steps of a [`crate::Run`] search and
/// code.
///
/// Refused: 1 where `fcode` is not 1 to 7, 2 and 3 as [`Mode`] says, 10 to 12 and 14 as
/// [`Quantising`] says, 14 where `vectors` is neither 1 nor 4.
#[derive(Clone, Copy, Debug)]
pub struct Settings<'a> {
    /// Vectors are -32F to 32F - 1, F being 2^(`fcode` - 1).
    pub fcode: u32,
    /// The vectors' units.
    pub mode: Mode,
    /// 1, or 4 where each 8 x 8 block is searched for too.
    pub vectors: u32,
    /// How the residual becomes events.
    pub quantising: Quantising<'a>,
}

/// A macroblock as it is coded.
#[derive(Clone, Copy, Debug, Default, PartialEq, Eq)]
pub struct Record {
    /// The one vector.
    pub vector: MotionVector,
    /// The one vector's sum of absolute differences.
    pub sum: u32,
    /// The four blocks' vectors; 0 where they were not searched for.
    pub vectors: [MotionVector; 4],
    /// The four vectors' sums; 0 where they were not searched for.
    pub sums: [u32; 4],
    /// Which blocks have an event.
    pub patterns: Patterns,
    /// How many events each of the six blocks has: luma 0 to 3, Cb, Cr.
    pub counts: [u8; 6],
}

/// A record as the C entries write it.
#[derive(Default)]
pub(crate) struct Numbers {
    pub vector: [i32; 2],
    pub sum: u32,
    pub four_vectors: [i32; 8],
    pub four_sums: [u32; 4],
    pub patterns: [u8; 2],
    pub counts: [u8; 6],
}

impl Numbers {
    pub fn record(self) -> Record {
        Record {
            vector: vector_of(self.vector),
            sum: self.sum,
            vectors: vectors_of(self.four_vectors),
            sums: self.four_sums,
            patterns: patterns_of(self.patterns),
            counts: self.counts,
        }
    }
}

fn patterns_of([luma, chroma]: [u8; 2]) -> Patterns {
    Patterns { luma, chroma }
}

/// How far a macroblock's luma lies from its mean: the sum of its 256 samples' distances from it,
/// the mean's fraction dropped. Of the source only luma is read.
///
/// Refused: 6 and 7 as [`Source`] says, 8 as [`Place`].
///
/// ```
/// use hencouch::{intra_activity, Place, Refusal, Source};
///
/// let mut y = [0; 256];
/// y[77] = 255;
/// let source = Source::luma(&y, 16, 16);
/// assert_eq!(intra_activity(&source, Place { column: 0, row: 0 })?, 255);
///
/// let refused = intra_activity(&source, Place { column: 0, row: 1 });
/// assert_eq!(refused, Err(Refusal::Place));
/// # Ok::<(), Refusal>(())
/// ```
pub fn intra_activity(source: &Source, place: Place) -> Result<u32, Refusal> {
    let Source { y, width, height, .. } = *source;
    let mut activity = 0;
    done(raw::intra_activity(y, width, height, place.column, place.row, &mut activity))?;
    Ok(activity)
}

/// A macroblock's source less its prediction, in six blocks of 64, eight to a row: luma 0 and 1
/// above 2 and 3, Cb, Cr.
///
/// Refused: 6 and 7 as [`Source`] says, 8 as [`Place`], 12 as [`Prediction`] and where `out` is not
/// 384 long.
///
/// ```
/// use hencouch::{macroblock_residual, Place, Prediction, Refusal, Source};
///
/// let source = Source { y: &[90; 256], cb: &[128; 64], cr: &[130; 64], width: 16, height: 16 };
/// let prediction = Prediction { y: &[100; 256], cb: &[128; 64], cr: &[128; 64] };
/// let place = Place { column: 0, row: 0 };
/// let mut out = [0; 384];
/// macroblock_residual(&source, place, &prediction, &mut out)?;
/// assert_eq!((out[0], out[256], out[320]), (-10, 0, 2));
///
/// let short = Source { cr: &[130; 63], ..source };
/// let refused = macroblock_residual(&short, place, &prediction, &mut out);
/// assert_eq!(refused, Err(Refusal::SourcePlane));
/// # Ok::<(), Refusal>(())
/// ```
pub fn macroblock_residual(
    source: &Source,
    place: Place,
    prediction: &Prediction,
    out: &mut [i32],
) -> Result<(), Refusal> {
    let Source { y, cb, cr, width, height } = *source;
    let Place { column, row } = place;
    let p = prediction;
    done(raw::macroblock_residual(y, cb, cr, width, height, column, row, p.y, p.cb, p.cr, out))
}

/// The events of a block's 64 residuals, eight to a row, and how many there are: transformed,
/// quantised, put into scan order, and written as [`crate::levels_to_events`] does.
///
/// Refused: 10, 11, 12 and 14 as [`Quantising`] says, 12 where another length is not 64, 13 where a
/// residual is outside -255 to 255.
///
/// ```
/// use hencouch::{quantise_inter_block, Events, Quantising, Refusal};
///
/// let quantising = Quantising::second_method(5);
/// let mut events = Events::<64>::new();
/// assert_eq!(quantise_inter_block(&[10; 64], &quantising, events.areas())?, 1);
/// assert_eq!((events.lasts[0], events.runs[0], events.levels[0]), (1, 0, 7));
///
/// let refused = quantise_inter_block(&[256; 64], &quantising, events.areas());
/// assert_eq!(refused, Err(Refusal::Range));
/// # Ok::<(), Refusal>(())
/// ```
pub fn quantise_inter_block(
    residual: &[i32],
    quantising: &Quantising,
    areas: Areas,
) -> Result<u8, Refusal> {
    let Quantising { quantiser, first_method, weights, scan } = *quantising;
    let Areas { lasts, runs, levels } = areas;
    let first_method = first_method.into();
    let mut count = 0;
    done(raw::quantise_inter_block(
        residual, quantiser, first_method, weights, scan, lasts, runs, levels, &mut count,
    ))?;
    Ok(count)
}

/// The same for the six blocks of a macroblock's residual, and how many events each has.
///
/// Refused: as [`quantise_inter_block`], the lengths being 384.
///
/// ```
/// use hencouch::{quantise_inter_residual, Events, Quantising, Refusal};
///
/// let mut residual = [0; 384];
/// residual[320..].fill(10);
/// let quantising = Quantising::second_method(5);
/// let mut events = Events::<384>::new();
/// let counts = quantise_inter_residual(&residual, &quantising, events.areas())?;
/// assert_eq!(counts, [0, 0, 0, 0, 0, 1]);
/// assert_eq!(events.levels[320], 7);
///
/// let mut short = Events::<64>::new();
/// let refused = quantise_inter_residual(&residual, &quantising, short.areas());
/// assert_eq!(refused, Err(Refusal::Length));
/// # Ok::<(), Refusal>(())
/// ```
pub fn quantise_inter_residual(
    residual: &[i32],
    quantising: &Quantising,
    areas: Areas,
) -> Result<[u8; 6], Refusal> {
    let Quantising { quantiser, first_method, weights, scan } = *quantising;
    let Areas { lasts, runs, levels } = areas;
    let first_method = first_method.into();
    let mut counts = [0; 6];
    done(raw::quantise_inter_residual(
        residual, quantiser, first_method, weights, scan, lasts, runs, levels, &mut counts,
    ))?;
    Ok(counts)
}

/// Which of six blocks have an event, from how many each has. Never refused.
///
/// ```
/// let patterns = hencouch::inter_cbp([3, 0, 0, 1, 0, 64]);
/// assert_eq!((patterns.luma, patterns.chroma), (9, 1));
/// ```
pub fn inter_cbp(counts: [u8; 6]) -> Patterns {
    let mut patterns = [0; 2];
    never_refused(raw::inter_cbp(&counts, &mut patterns));
    patterns_of(patterns)
}

/// Searches for a macroblock and codes its residual: its record, and its events in the areas, which
/// are 384 long. The residual is taken against the prediction, whatever the vectors are.
///
/// Refused: 1, 2, 3, 10, 11, 12 and 14 as [`Settings`] says, 4 and 5 as [`Reference`], 6 and 7 as
/// [`Source`], 8 as [`Place`], 12 as [`Prediction`] and [`Areas`].
///
/// ```
/// use hencouch::{code_macroblock, Events, Mode, MotionVector, Place, Prediction, Quantising};
/// use hencouch::{Reference, Refusal, Settings, Source};
///
/// let texture = |x: usize, y: usize| (x * x * 7 + y * y * 13 + x * y * 5) as u8;
/// let now: Vec<u8> = (0..48 * 32).map(|k| texture(k % 48 + 3, k / 48 + 1)).collect();
/// let before: Vec<u8> = (0..48 * 32).map(|k| texture(k % 48, k / 48)).collect();
/// let grey = [128; 24 * 16];
/// let source = Source { y: &now, cb: &grey, cr: &grey, width: 48, height: 32 };
/// let reference = Reference { samples: &before, width: 48, height: 32, stride: 48 };
/// let prediction = Prediction { y: &[128; 256], cb: &grey[..64], cr: &grey[..64] };
/// let settings = Settings {
///     fcode: 1,
///     mode: Mode::HALF,
///     vectors: 4,
///     quantising: Quantising::second_method(5),
/// };
/// let place = Place { column: 1, row: 0 };
/// let mut events = Events::<384>::new();
/// let record =
///     code_macroblock(&settings, &reference, &source, place, &prediction, events.areas())?;
/// assert_eq!((record.vector, record.sum), (MotionVector { x: 6, y: 2 }, 0));
/// assert_eq!(record.vectors, [MotionVector { x: 6, y: 2 }; 4]);
/// assert_eq!((record.patterns.luma, record.patterns.chroma), (15, 0));
/// assert_eq!(record.counts, [58, 58, 57, 60, 0, 0]);
///
/// let odd = Settings { vectors: 2, ..settings };
/// let refused = code_macroblock(&odd, &reference, &source, place, &prediction, events.areas());
/// assert_eq!(refused, Err(Refusal::Choice));
/// # Ok::<(), Refusal>(())
/// ```
pub fn code_macroblock(
    settings: &Settings,
    reference: &Reference,
    source: &Source,
    place: Place,
    prediction: &Prediction,
    areas: Areas,
) -> Result<Record, Refusal> {
    let Settings { fcode, mode, vectors, quantising } = *settings;
    let first_method = quantising.first_method.into();
    let mut numbers = Numbers::default();
    done(raw::code_macroblock(
        fcode, mode.mode, mode.bits_per_pixel, quantising.quantiser, first_method, vectors,
        quantising.scan, reference.samples, reference.width, reference.height, reference.stride,
        source.y, source.cb, source.cr, source.width, source.height, place.column, place.row,
        quantising.weights, prediction.y, prediction.cb, prediction.cr, areas.lasts, areas.runs,
        areas.levels, &mut numbers.vector, &mut numbers.sum, &mut numbers.four_vectors,
        &mut numbers.four_sums, &mut numbers.patterns, &mut numbers.counts,
    ))?;
    Ok(numbers.record())
}

/// Searches for a macroblock, predicts it by the vectors found, the four where `settings.vectors` is
/// 4, and codes its residual against that, as [`code_macroblock`] does against a lent prediction. A
/// reader who has the reference's planes, the record and the rounding type gets the same prediction
/// by [`crate::predict_macroblock`] or [`crate::predict_macroblock_4mv`].
///
/// Refused: 1, 2, 3, 10, 11, 12 and 14 as [`Settings`] says, 4 and 5 as [`ReferencePlanes`], 6 and 7
/// as [`Source`], 8 as [`Place`], 12 as [`Areas`], 31 where `rounding` is above 1.
///
/// ```
/// use hencouch::{code_predicted_macroblock, Events, Mode, MotionVector, Place, Quantising};
/// use hencouch::{Reference, ReferencePlanes, Refusal, Settings, Source};
///
/// let texture = |x: usize, y: usize| (x * x * 7 + y * y * 13 + x * y * 5) as u8;
/// let now: Vec<u8> = (0..48 * 32).map(|k| texture(k % 48 + 3, k / 48 + 1)).collect();
/// let before: Vec<u8> = (0..48 * 32).map(|k| texture(k % 48, k / 48)).collect();
/// let grey = [128; 24 * 16];
/// let source = Source { y: &now, cb: &grey, cr: &[138; 24 * 16], width: 48, height: 32 };
/// let luma = Reference { samples: &before, width: 48, height: 32, stride: 48 };
/// let reference = ReferencePlanes { luma, cb: &grey, cr: &grey, chroma_stride: 24 };
/// let settings = Settings {
///     fcode: 1,
///     mode: Mode::HALF,
///     vectors: 1,
///     quantising: Quantising::second_method(5),
/// };
/// let place = Place { column: 1, row: 0 };
/// let mut events = Events::<384>::new();
/// let record =
///     code_predicted_macroblock(&settings, &reference, 0, &source, place, events.areas())?;
/// assert_eq!((record.vector, record.sum), (MotionVector { x: 6, y: 2 }, 0));
/// assert_eq!((record.counts, events.levels[320]), ([0, 0, 0, 0, 0, 1], 7));
///
/// let refused =
///     code_predicted_macroblock(&settings, &reference, 2, &source, place, events.areas());
/// assert_eq!(refused, Err(Refusal::RoundingType));
/// # Ok::<(), Refusal>(())
/// ```
pub fn code_predicted_macroblock(
    settings: &Settings,
    reference: &ReferencePlanes,
    rounding: u8,
    source: &Source,
    place: Place,
    areas: Areas,
) -> Result<Record, Refusal> {
    let Settings { fcode, mode, vectors, quantising } = *settings;
    let first_method = quantising.first_method.into();
    let ReferencePlanes { luma, cb, cr, chroma_stride } = *reference;
    let mut numbers = Numbers::default();
    done(raw::code_predicted_macroblock(
        fcode, mode.mode, mode.bits_per_pixel, quantising.quantiser, first_method, vectors,
        quantising.scan, rounding, luma.samples, cb, cr, luma.width, luma.height, luma.stride,
        chroma_stride, source.y, source.cb, source.cr, source.width, source.height, place.column,
        place.row, quantising.weights, areas.lasts, areas.runs, areas.levels, &mut numbers.vector,
        &mut numbers.sum, &mut numbers.four_vectors, &mut numbers.four_sums, &mut numbers.patterns,
        &mut numbers.counts,
    ))?;
    Ok(numbers.record())
}
