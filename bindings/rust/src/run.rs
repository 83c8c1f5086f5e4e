//! A picture's run: its macroblocks one after the other, row by row, a step for each.

use crate::macroblock::Numbers;
use crate::refusal::{done, never_refused};
use crate::{raw, Areas, Place, Prediction, Record, Reference, ReferencePlanes};
use crate::{Refusal, Settings, Source};

/// A picture's run. Whatever its numbers are, each call answers as is said of it; one that would
/// reach 2^64 goes on from 0.
///
/// ```
/// use hencouch::{Events, Mode, Prediction, Quantising, Reference, Refusal, Run, Settings, Source};
///
/// let (luma, chroma) = ([100; 20 * 16], [100; 10 * 8]);
/// let source = Source { y: &luma, cb: &chroma, cr: &chroma, width: 20, height: 16 };
/// let reference = Reference { samples: &luma, width: 20, height: 16, stride: 20 };
/// let settings = Settings {
///     fcode: 1,
///     mode: Mode::HALF,
///     vectors: 1,
///     quantising: Quantising::second_method(5),
/// };
/// let mut run = Run::open(20, 16)?;
/// let mut events = Events::<384>::new();
/// loop {
///     // A prediction of the macroblock at `run.next_place()`.
///     let prediction = Prediction { y: &[98; 256], cb: &[100; 64], cr: &[100; 64] };
///     match run.step(&settings, &reference, &source, &prediction, events.areas()) {
///         Ok(record) => assert_eq!(record.counts, [1, 1, 1, 1, 0, 0]),
///         Err(Refusal::AfterLast) => break,
///         Err(why) => return Err(why),
///     }
/// }
/// let totals = run.close()?;
/// assert_eq!((totals.macroblocks, totals.events, totals.sums), (2, 8, 0));
/// # Ok::<(), Refusal>(())
/// ```
#[derive(Clone, Copy, Debug, PartialEq, Eq)]
pub struct Run {
    /// The source's width, in luma samples.
    pub width: u64,
    /// The source's height, in luma samples.
    pub height: u64,
    /// The macroblocks given.
    pub macroblocks: u64,
    /// Their events.
    pub events: u64,
    /// Their one vectors' sums.
    pub sums: u64,
}

/// Totals over the records that a run gave.
#[derive(Clone, Copy, Debug, PartialEq, Eq)]
pub struct Totals {
    /// How many records.
    pub macroblocks: u64,
    /// Their events.
    pub events: u64,
    /// Their one vectors' sums.
    pub sums: u64,
}

impl Run {
    /// A run of which nothing is coded yet.
    ///
    /// Refused: 6 where a side is not 1 to 4,096.
    ///
    /// ```
    /// use hencouch::{Refusal, Run};
    ///
    /// let run = Run::open(176, 144)?;
    /// assert_eq!((run.width, run.height, run.macroblocks), (176, 144, 0));
    ///
    /// assert_eq!(Run::open(176, 0), Err(Refusal::SourceSide));
    /// # Ok::<(), Refusal>(())
    /// ```
    pub fn open(width: usize, height: usize) -> Result<Run, Refusal> {
        let mut numbers = [0; 5];
        done(raw::open(width, height, &mut numbers))?;
        Ok(Run::of(numbers))
    }

    /// The place of the next macroblock that [`Run::step`] codes: below the picture after the last.
    /// Never refused.
    ///
    /// ```
    /// use hencouch::{Place, Refusal, Run};
    ///
    /// let run = Run { macroblocks: 7, ..Run::open(80, 48)? };
    /// assert_eq!(run.next_place(), Place { column: 2, row: 1 });
    /// # Ok::<(), Refusal>(())
    /// ```
    pub fn next_place(&self) -> Place {
        let mut place = [0; 2];
        never_refused(raw::next_place(&self.numbers(), &mut place));
        let [column, row] = place.map(|number| number as usize);
        Place { column, row }
    }

    /// Searches for the run's next macroblock and codes it, as [`crate::code_macroblock`] does
    /// there; the run is then one macroblock further. A refused step leaves it as it was.
    ///
    /// Refused: 21 after the last macroblock, 22 where the source's sides are not the run's, then as
    /// [`crate::code_macroblock`].
    ///
    /// ```
    /// # use hencouch::{Events, Mode, Prediction, Quantising, Reference, Refusal, Run, Settings, Source};
    /// # let (luma, chroma) = ([100; 20 * 16], [100; 10 * 8]);
    /// # let source = Source { y: &luma, cb: &chroma, cr: &chroma, width: 20, height: 16 };
    /// # let reference = Reference { samples: &luma, width: 20, height: 16, stride: 20 };
    /// # let quantising = Quantising::second_method(5);
    /// # let settings = Settings { fcode: 1, mode: Mode::HALF, vectors: 1, quantising };
    /// # let prediction = Prediction { y: &[98; 256], cb: &[100; 64], cr: &[100; 64] };
    /// # let mut events = Events::<384>::new();
    /// let mut run = Run::open(20, 16)?;
    /// let record = run.step(&settings, &reference, &source, &prediction, events.areas())?;
    /// assert_eq!((record.sum, run.macroblocks, run.events), (0, 1, 4));
    ///
    /// let narrow = Source { width: 19, ..source };
    /// let refused = run.step(&settings, &reference, &narrow, &prediction, events.areas());
    /// assert_eq!(refused, Err(Refusal::OtherSize));
    /// assert_eq!(run.macroblocks, 1);
    /// # Ok::<(), Refusal>(())
    /// ```
    pub fn step(
        &mut self,
        settings: &Settings,
        reference: &Reference,
        source: &Source,
        prediction: &Prediction,
        areas: Areas,
    ) -> Result<Record, Refusal> {
        let Settings { fcode, mode, vectors, quantising } = *settings;
        let first_method = quantising.first_method.into();
        let mut run = self.numbers();
        let mut numbers = Numbers::default();
        done(raw::step(
            &mut run, fcode, mode.mode, mode.bits_per_pixel, quantising.quantiser, first_method,
            vectors, quantising.scan, reference.samples, reference.width, reference.height,
            reference.stride, source.y, source.cb, source.cr, source.width, source.height,
            quantising.weights, prediction.y, prediction.cb, prediction.cr, areas.lasts,
            areas.runs, areas.levels, &mut numbers.vector, &mut numbers.sum,
            &mut numbers.four_vectors, &mut numbers.four_sums, &mut numbers.patterns,
            &mut numbers.counts,
        ))?;
        *self = Run::of(run);
        Ok(numbers.record())
    }

    /// Searches for the run's next macroblock, predicts it by the vectors found and codes it, as
    /// [`crate::code_predicted_macroblock`] does there; else as [`Run::step`], and either may follow
    /// the other.
    ///
    /// Refused: 21 after the last macroblock, 22 where the source's sides are not the run's, then as
    /// [`crate::code_predicted_macroblock`].
    ///
    /// ```
    /// use hencouch::{Events, Mode, Quantising, Reference, ReferencePlanes, Refusal, Run, Settings};
    /// use hencouch::Source;
    ///
    /// let (luma, chroma) = ([100; 20 * 16], [100; 10 * 8]);
    /// let source = Source { y: &luma, cb: &chroma, cr: &chroma, width: 20, height: 16 };
    /// let before = Reference { samples: &[98; 20 * 16], width: 20, height: 16, stride: 20 };
    /// let reference =
    ///     ReferencePlanes { luma: before, cb: &chroma, cr: &chroma, chroma_stride: 10 };
    /// let quantising = Quantising::second_method(5);
    /// let settings = Settings { fcode: 1, mode: Mode::HALF, vectors: 1, quantising };
    /// let mut events = Events::<384>::new();
    /// let mut run = Run::open(20, 16)?;
    /// let record = run.step_predicted(&settings, &reference, 0, &source, events.areas())?;
    /// assert_eq!((record.sum, run.macroblocks, run.events), (512, 1, 4));
    ///
    /// let refused = run.step_predicted(&settings, &reference, 2, &source, events.areas());
    /// assert_eq!(refused, Err(Refusal::RoundingType));
    /// assert_eq!(run.macroblocks, 1);
    /// # Ok::<(), Refusal>(())
    /// ```
    pub fn step_predicted(
        &mut self,
        settings: &Settings,
        reference: &ReferencePlanes,
        rounding: u8,
        source: &Source,
        areas: Areas,
    ) -> Result<Record, Refusal> {
        let Settings { fcode, mode, vectors, quantising } = *settings;
        let first_method = quantising.first_method.into();
        let ReferencePlanes { luma, cb, cr, chroma_stride } = *reference;
        let mut run = self.numbers();
        let mut numbers = Numbers::default();
        done(raw::step_predicted(
            &mut run, fcode, mode.mode, mode.bits_per_pixel, quantising.quantiser, first_method,
            vectors, quantising.scan, rounding, luma.samples, cb, cr, luma.width, luma.height,
            luma.stride, chroma_stride, source.y, source.cb, source.cr, source.width,
            source.height, quantising.weights, areas.lasts, areas.runs, areas.levels,
            &mut numbers.vector, &mut numbers.sum, &mut numbers.four_vectors,
            &mut numbers.four_sums, &mut numbers.patterns, &mut numbers.counts,
        ))?;
        *self = Run::of(run);
        Ok(numbers.record())
    }

    /// The totals of a run at its end. The run is only read.
    ///
    /// Refused: 23 before the last macroblock.
    ///
    /// ```
    /// use hencouch::{Refusal, Run};
    ///
    /// let run = Run::open(16, 16)?;
    /// assert_eq!(run.close(), Err(Refusal::BeforeLast));
    ///
    /// let kept = Run { macroblocks: 1, events: 5, sums: 320, ..run };
    /// assert_eq!(kept.close()?.sums, 320);
    /// # Ok::<(), Refusal>(())
    /// ```
    pub fn close(&self) -> Result<Totals, Refusal> {
        let mut totals = [0; 3];
        done(raw::close(&self.numbers(), &mut totals))?;
        let [macroblocks, events, sums] = totals;
        Ok(Totals { macroblocks, events, sums })
    }

    /// As the C entries have it.
    fn numbers(&self) -> [u64; 5] {
        [self.width, self.height, self.macroblocks, self.events, self.sums]
    }

    fn of([width, height, macroblocks, events, sums]: [u64; 5]) -> Run {
        Run { width, height, macroblocks, events, sums }
    }
}
