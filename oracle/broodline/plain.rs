//! What broodline is to print. A macroblock is coded by the originals; what is read, turned back
//! and printed is written from the rules, as the originals have nothing of it.

use super::header::{Header, HEADER};
use crate::ask::{Coding, Prediction, Quantising, Reference, Search, Source};
use crate::pvop_encode::{Coded, Coder};

/// Bytes that a macroblock is coded against: 256 of luma, 64 of each chroma.
pub const PREDICTION: usize = 384;

/// The input ends early.
const SHORT: u8 = 12;

/// Not looked at by the second method.
static WEIGHTS: [u8; 64] = [16; 64];

/// The whole output for an input.
pub fn play(input: &[u8]) -> String {
    let mut text = String::new();
    if let Err(number) = print_lines(input, &mut text) {
        text += &format!("refused {number}\n");
    }
    text
}

/// The lines of the macroblocks that are whole, and the refusal after them.
fn print_lines(input: &[u8], text: &mut String) -> Result<(), u8> {
    let clip = Clip::read(input)?;
    for k in 0..clip.header.macroblocks() {
        let coding = clip.coding(k)?;
        let (column, row) = (coding.search.column, coding.search.row);
        *text += &line(column, row, &Coder::new(&coding).code());
    }
    Ok(())
}

fn line(column: usize, row: usize, coded: &Coded) -> String {
    let Coded { vector, sum, four, events, patterns } = coded;
    let count: usize = events.iter().map(Vec::len).sum();
    let mut line = format!("{column} {row} {} {} {sum}", vector.x, vector.y);
    line += &format!(" {} {} {count}", patterns.0, patterns.1);
    if let Some((vectors, total)) = four {
        for vector in vectors {
            line += &format!(" {} {}", vector.x, vector.y);
        }
        line += &format!(" {total}");
    }
    line + "\n"
}

/// An input up to its predictions, with nothing wrong.
pub struct Clip<'a> {
    pub header: Header,
    planes: [&'a [u8]; 3],
    reference: &'a [u8],
    /// Of all macroblocks, or of fewer, and more bytes maybe.
    predictions: &'a [u8],
}

impl<'a> Clip<'a> {
    /// The error is the number of the refusal.
    pub fn read(input: &'a [u8]) -> Result<Self, u8> {
        let mut rest = input;
        let mut take = |len: usize| -> Result<&'a [u8], u8> {
            let (part, later) = rest.split_at_checked(len).ok_or(SHORT)?;
            rest = later;
            Ok(part)
        };
        let bytes = take(HEADER)?;
        let header = Header::read(bytes.try_into().expect("as many as were taken"));
        if let Some(&number) = header.reasons().first() {
            return Err(number);
        }
        let planes = [take(header.luma())?, take(header.chroma())?, take(header.chroma())?];
        let reference = take(header.luma())?;
        Ok(Clip { header, planes, reference, predictions: rest })
    }

    /// The macroblock that is coded after so many others; the error as above.
    pub fn coding(&self, k: usize) -> Result<Coding<'a>, u8> {
        let Header { fcode, mode, quantiser, vectors, .. } = self.header;
        let (width, height) = self.header.sides();
        let [y, cb, cr] = self.planes;
        let part = self.predictions.get(PREDICTION * k..PREDICTION * (k + 1)).ok_or(SHORT)?;
        Ok(Coding {
            search: Search {
                source: Source { samples: y, width, height },
                column: k % self.header.columns(),
                row: k / self.header.columns(),
                reference: Reference { samples: self.reference, width, height, stride: width },
                mode: mode.into(),
                bits_per_pixel: 8,
                fcode: fcode.into(),
            },
            vectors: vectors.into(),
            cb,
            cr,
            prediction: Prediction { y: &part[..256], cb: &part[256..320], cr: &part[320..] },
            quantising: Quantising {
                quantiser: quantiser.into(),
                first_method: 0,
                weights: &WEIGHTS,
                scan: 2,
            },
        })
    }
}
