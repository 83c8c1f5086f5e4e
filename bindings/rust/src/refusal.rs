//! Why a call is turned back.

use std::fmt;

/// Why a call was turned back: the first reason that applies, in this order, the run's before the
/// input's. Nothing that was lent to the call is changed.
///
/// ```
/// use hencouch::Refusal;
///
/// let why = Refusal::from_number(12).unwrap();
/// assert_eq!(why, Refusal::Length);
/// assert_eq!(why.number(), 12);
/// assert_eq!(why.to_string(), "refused (12): a length is not the one wanted");
/// ```
#[derive(Clone, Copy, Debug, PartialEq, Eq, Hash)]
#[repr(u8)]
pub enum Refusal {
    /// `fcode` is not 1 to 7.
    Fcode = 1,
    /// The mode is neither 0, half samples, nor 1, quarter samples.
    Mode = 2,
    /// Quarter samples, and `bits_per_pixel` is not 1 to 8.
    BitsPerPixel = 3,
    /// The reference's width or height is not 1 to 4,096, its stride not width to 8,192, or its chroma
    /// stride not from chroma's width to 8,192.
    ReferenceSize = 4,
    /// A plane of the reference has no more samples than (height - 1) * stride + width - 1.
    ReferenceBytes = 5,
    /// The source's width or height is not 1 to 4,096.
    SourceSide = 6,
    /// A plane of the source is shorter than its width times its height.
    SourcePlane = 7,
    /// The macroblock is not in the source. Where a block is predicted, alone or in a macroblock:
    /// its origin is outside -4,096 to 4,096 or its vector outside -2,048 to 2,047.
    Place = 8,
    /// The seed of the four vectors is outside the range that `fcode` gives.
    Seed = 9,
    /// The quantiser is not 1 to 31.
    Quantiser = 10,
    /// The first method, and a weight is 0.
    Weight = 11,
    /// A prediction, a matrix of weights or a lent area is not as long as it has to be.
    Length = 12,
    /// A residual is outside -255 to 255, a coefficient outside -2,048 to 2,047, or a level outside
    /// -2,047 to 2,047.
    Range = 13,
    /// The count of vectors is neither 1 nor 4, a block's side neither 8 nor 16, or the scan not 0
    /// to 2.
    Choice = 14,
    /// A step after the run's last macroblock.
    AfterLast = 21,
    /// A step with a source of another size than the run was opened with.
    OtherSize = 22,
    /// The run is closed before its last macroblock.
    BeforeLast = 23,
    /// The rounding type is above 1. Interpolation keeps its low bit and refuses none.
    RoundingType = 31,
}

impl Refusal {
    /// Every refusal, in the order of the numbers.
    pub const ALL: [Refusal; 18] = [
        Refusal::Fcode,
        Refusal::Mode,
        Refusal::BitsPerPixel,
        Refusal::ReferenceSize,
        Refusal::ReferenceBytes,
        Refusal::SourceSide,
        Refusal::SourcePlane,
        Refusal::Place,
        Refusal::Seed,
        Refusal::Quantiser,
        Refusal::Weight,
        Refusal::Length,
        Refusal::Range,
        Refusal::Choice,
        Refusal::AfterLast,
        Refusal::OtherSize,
        Refusal::BeforeLast,
        Refusal::RoundingType,
    ];

    /// The number by which the C entries answer: 1 to 14 and 31 for the input, 21 to 23 for the
    /// run.
    pub const fn number(self) -> u8 {
        self as u8
    }

    /// The refusal of a number; of 0, which is no refusal, and of any other number there is none.
    pub fn from_number(number: u8) -> Option<Refusal> {
        Refusal::ALL.into_iter().find(|why| why.number() == number)
    }

    /// What is wrong, in a few words.
    pub const fn text(self) -> &'static str {
        match self {
            Refusal::Fcode => "fcode is not 1 to 7",
            Refusal::Mode => "the mode is neither 0 nor 1",
            Refusal::BitsPerPixel => "the bits per pixel are not 1 to 8",
            Refusal::ReferenceSize => "the reference's size or stride is out of bounds",
            Refusal::ReferenceBytes => "the reference has too few samples",
            Refusal::SourceSide => "a side of the source is not 1 to 4096",
            Refusal::SourcePlane => "a plane of the source has too few samples",
            Refusal::Place => "the macroblock, the origin or the vector is out of bounds",
            Refusal::Seed => "the seed is out of fcode's range",
            Refusal::Quantiser => "the quantiser is not 1 to 31",
            Refusal::Weight => "a weight of the first method is 0",
            Refusal::Length => "a length is not the one wanted",
            Refusal::Range => "a residual, coefficient or level is out of range",
            Refusal::Choice => "the count of vectors, a block's side or the scan is none there is",
            Refusal::AfterLast => "the run has had its last macroblock",
            Refusal::OtherSize => "the source has not the run's size",
            Refusal::BeforeLast => "the run has not had its last macroblock",
            Refusal::RoundingType => "the rounding type is above 1",
        }
    }
}

impl fmt::Display for Refusal {
    fn fmt(&self, f: &mut fmt::Formatter) -> fmt::Result {
        write!(f, "refused ({}): {}", self.number(), self.text())
    }
}

impl std::error::Error for Refusal {}

/// What a C entry's reply says. A number of no list would be that of another version's library.
#[inline]
pub(crate) fn done(reply: u8) -> Result<(), Refusal> {
    match reply {
        0 => Ok(()),
        number => Err(Refusal::from_number(number).expect("a number of the lists of refusals")),
    }
}

/// Of the entries that take whatever they are told.
#[inline]
pub(crate) fn never_refused(reply: u8) {
    debug_assert_eq!(reply, 0, "this entry is never refused");
}

#[cfg(test)]
mod tests {
    use super::*;

    /// The two lists.
    const NUMBERS: [u8; 18] = [1, 2, 3, 4, 5, 6, 7, 8, 9, 10, 11, 12, 13, 14, 21, 22, 23, 31];

    #[test]
    fn every_refusal_has_its_number() {
        assert_eq!(Refusal::ALL.map(Refusal::number), NUMBERS);
    }

    #[test]
    fn every_number_is_read_back_and_no_other() {
        for number in 0..=255 {
            let why = Refusal::from_number(number);
            assert_eq!(why.map(Refusal::number), NUMBERS.contains(&number).then_some(number));
        }
    }

    #[test]
    fn every_refusal_says_its_number_and_something_of_its_own() {
        for (at, why) in Refusal::ALL.into_iter().enumerate() {
            assert_eq!(why.to_string(), format!("refused ({}): {}", NUMBERS[at], why.text()));
            assert!(Refusal::ALL[..at].iter().all(|other| other.text() != why.text()));
        }
    }

    #[test]
    fn a_reply_of_0_is_no_refusal() {
        assert_eq!(done(0), Ok(()));
        for why in Refusal::ALL {
            assert_eq!(done(why.number()), Err(why));
        }
    }
}
