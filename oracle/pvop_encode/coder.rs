//! The originals put together as the rules say of the entries that search and code: the search for
//! one vector, that for four seeded by it where they are wanted, the residual against the lent
//! prediction or that made here, its events and their pattern. What differs in form is turned over here.

use super::{
    inter_cbp, macroblock_residual, quantise_inter_residual, AcEvent, FrameView,
    MacroblockResidual, MotionVector, Place, PvopMbMotion, ScanType,
};
use crate::ask::{Coding, Macroblock, Prediction, Quantising, Source};
use crate::predicted::Planes;
use crate::reconstruct::InterPredictionMacroblock;

/// The six blocks of a macroblock, four of luma and two of chroma, each by rows.
pub type Blocks = [[[i32; 8]; 8]; 6];

/// A scan by its number.
pub fn scan_of(number: u32) -> ScanType {
    match number {
        0 => ScanType::AlternateHorizontal,
        1 => ScanType::AlternateVertical,
        _ => ScanType::Zigzag,
    }
}

/// And back.
pub fn scan_number(scan: ScanType) -> u32 {
    match scan {
        ScanType::AlternateHorizontal => 0,
        ScanType::AlternateVertical => 1,
        ScanType::Zigzag => 2,
    }
}

/// Numbers by rows of `N`.
pub fn rows_of<T: Copy, U: From<T> + Copy, const N: usize>(numbers: &[T]) -> [[U; N]; N] {
    std::array::from_fn(|j| std::array::from_fn(|i| U::from(numbers[j * N + i])))
}

pub fn prediction_of(p: &Prediction) -> InterPredictionMacroblock {
    InterPredictionMacroblock { luma: rows_of(p.y), cb: rows_of(p.cb), cr: rows_of(p.cr) }
}

/// Luma of 16 x 16 and chroma as six blocks.
pub fn blocks_of((luma, cb, cr): &MacroblockResidual) -> Blocks {
    let block = |b: usize| {
        std::array::from_fn(|j| std::array::from_fn(|i| luma[b / 2 * 8 + j][b % 2 * 8 + i]))
    };
    [block(0), block(1), block(2), block(3), *cb, *cr]
}

/// The source with its three planes.
pub fn view_of<'a>(m: &Macroblock<'a>) -> FrameView<'a> {
    let Source { samples, width, height } = m.source;
    FrameView { y: samples, cb: m.cb, cr: m.cr, width, height }
}

pub struct Coded {
    pub vector: MotionVector,
    pub sum: u32,
    /// The four vectors and the total of their sums, where they were searched for.
    pub four: Option<([MotionVector; 4], u32)>,
    pub events: Vec<Vec<AcEvent>>,
    /// Luma, chroma.
    pub patterns: (u8, u8),
}

/// A call with nothing wrong, as the originals take it.
pub struct Coder<'a> {
    pub place: Place<'a>,
    frame: FrameView<'a>,
    column: usize,
    row: usize,
    prediction: InterPredictionMacroblock,
    four: bool,
    quantiser: u32,
    first_method: bool,
    weights: [[u8; 8]; 8],
    scan: ScanType,
}

impl<'a> Coder<'a> {
    pub fn new(c: &Coding<'a>) -> Self {
        let Quantising { quantiser, first_method, weights, scan } = c.quantising;
        Coder {
            place: Place::new(&c.search),
            frame: view_of(&c.macroblock()),
            column: c.search.column,
            row: c.search.row,
            prediction: prediction_of(&c.prediction),
            four: c.vectors == 4,
            quantiser,
            first_method: first_method != 0,
            weights: rows_of(weights),
            scan: scan_of(scan),
        }
    }

    pub fn code(&self) -> Coded {
        self.code_by(|_| self.residual())
    }

    /// The same against what the vectors found predict.
    pub fn code_predicted(&self, planes: &Planes, rounding: u8) -> Coded {
        self.code_by(|motion| {
            let place = (self.column, self.row);
            let samples = planes.predict(self.place.mode, motion, place, rounding);
            let prediction = prediction_of(&samples.lent());
            macroblock_residual(&self.frame, self.row, self.column, &prediction)
        })
    }

    fn code_by(&self, residual: impl Fn(PvopMbMotion) -> MacroblockResidual) -> Coded {
        let (vector, sum) = self.place.one();
        let four = self.four.then(|| self.place.four(vector));
        let motion = match four {
            Some((vectors, _)) => PvopMbMotion::FourMv(vectors),
            None => PvopMbMotion::OneMv(vector),
        };
        let events = self.events_of(&residual(motion));
        let patterns = inter_cbp(&events);
        Coded { vector, sum, four, events, patterns }
    }

    /// Of the residual against the lent prediction.
    pub fn events(&self) -> Vec<Vec<AcEvent>> {
        self.events_of(&self.residual())
    }

    pub fn residual(&self) -> MacroblockResidual {
        macroblock_residual(&self.frame, self.row, self.column, &self.prediction)
    }

    /// The same in six blocks of 64, as the library has it.
    pub fn six_residuals(&self) -> Vec<i32> {
        blocks_of(&self.residual()).concat().concat()
    }

    pub fn events_of(&self, (luma, cb, cr): &MacroblockResidual) -> Vec<Vec<AcEvent>> {
        let Coder { quantiser, first_method, weights, scan, .. } = self;
        quantise_inter_residual(luma, cb, cr, *quantiser, *first_method, weights, *scan)
    }
}
