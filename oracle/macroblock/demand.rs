//! Demand 3, sentence by sentence, of one accepted call and its answer. What the answer means is
//! what the reader makes of it; sums on the lists are its sums too. Coefficients are the original
//! transform's; their levels are worked out here, by the rule. What the reader inverts is
//! also held to the original's inverse, as a nearer one than the standard's would pass unnoticed.
//! Where the coder made the prediction, the reader has to reach the same 384 samples.

use super::lists::{At, Bounds, List};
use super::reader::{Handed, Reader, Samples};
use super::whole::call::{Answer, Call, Form};
use crate::ask::{chroma_planes, Coding, Macroblock, Prediction, Source};
use crate::fdct::forward_dct_8x8;
use crate::inverse_quant::{inverse_quant_method2_coef, saturate_fprime};

/// A run of at least this many calls has to check everything that is counted.
const ENOUGH: usize = 20_000;

/// How many of each sentence were checked.
#[derive(Default)]
pub struct Checked {
    sums: usize,
    ranges: usize,
    sub_lists: usize,
    sub_entries: usize,
    full_lists: usize,
    full_entries: usize,
    levels: usize,
    near: usize,
    dropped: usize,
    /// Non-zero and zero levels that lie as far from their coefficients as the sentence allows, for
    /// quantiser 1, for even ones and for the other odd ones.
    farthest: [usize; 3],
    largest: [usize; 3],
    /// Predictions made by the coder that the reader reached.
    reached: usize,
}

/// The rounding type of all sums.
const SUMS: i32 = 0;

pub struct Demand<'a> {
    call: &'a Call<'a>,
    coding: &'a Coding<'a>,
    answer: &'a Answer,
    reader: Reader<'a>,
    bounds: Bounds,
    /// The source's 16 x 16 luma, and its residual in six blocks of 64.
    luma: Samples,
    residual: Vec<i32>,
}

impl<'a> Demand<'a> {
    pub fn new(call: &'a Call<'a>, answer: &'a Answer) -> Self {
        let coding = &call.coding;
        let search = &coding.search;
        let (x, y) = (16 * search.column as i32, 16 * search.row as i32);
        let reader = Reader {
            reference: search.reference,
            x,
            y,
            quarter: (search.mode == 1).then_some(search.bits_per_pixel),
            scan: coding.quantising.scan,
            quantiser: coding.quantising.quantiser,
        };
        let bounds = Bounds {
            fcode: search.fcode,
            units: if search.mode == 1 { 4 } else { 2 },
            x,
            y,
            width: search.reference.width as i32,
            height: search.reference.height as i32,
        };
        let m = coding.macroblock();
        let luma = square(&m.source, 16, 16 * m.column, 16 * m.row);
        let residual = residual(&m, &luma);
        Demand { call, coding, answer, reader, bounds, luma, residual }
    }

    pub fn check(&self, checked: &mut Checked) -> Result<(), String> {
        self.one(checked).map_err(|text| format!("one vector: {text}"))?;
        for block in 0..4 {
            let [x, y] = [0, 1].map(|part| self.answer.four_vectors[2 * block + part]);
            let sum = self.answer.four_sums[block];
            if self.coding.vectors == 4 {
                self.of_four(block, (x, y), sum, checked)
                    .map_err(|text| format!("vector {block} of four: {text}"))?;
            } else if (x, y, sum) != (0, 0, 0) {
                return Err(format!("vector {block} of four, not searched for, is not 0"));
            }
        }
        self.same_prediction(checked)?;
        self.levels(checked)
    }

    /// A prediction made by the coder is what the reader gets from the record, the reference's planes
    /// and the rounding type.
    fn same_prediction(&self, checked: &mut Checked) -> Result<(), String> {
        let (Some(making), Some(planes)) = (self.call.making, self.call.reference()) else {
            return Ok(());
        };
        let pairs = |parts: &[i32]| parts.chunks(2).map(|v| (v[0], v[1])).collect::<Vec<At>>();
        let vectors = match self.coding.vectors {
            4 => pairs(&self.answer.four_vectors),
            _ => pairs(&self.answer.vector),
        };
        let read = self.reader.samples(&vectors, &chroma_planes(&planes), making.rounding.into());
        let Prediction { y, cb, cr } = self.coding.prediction;
        let coded = [y, cb, cr].concat();
        if let Some(k) = (0..384).find(|&k| read[k] != i32::from(coded[k])) {
            return Err(format!("the reader's sample {k} is {}, not {}", read[k], coded[k]));
        }
        checked.reached += 1;
        Ok(())
    }

    fn one(&self, checked: &mut Checked) -> Result<(), String> {
        let [x, y] = self.answer.vector;
        let reader = &self.reader;
        let sum = |vector: At| difference(&self.luma, &reader.luma_16(vector, SUMS));
        let whole = |at: At| reader.square(16, reader.x + at.0, reader.y + at.1);
        let full = self.bounds.full(|at| difference(&self.luma, &whole(at)));
        let winner = full.best();
        let units = self.bounds.units;
        if whole(winner) != reader.luma_16((units * winner.0, units * winner.1), SUMS) {
            return Err("the reader's prediction of a whole place is not its samples".to_string());
        }
        self.found(&full, (x, y), self.answer.sum, sum, checked)
    }

    fn of_four(
        &self,
        block: usize,
        vector: At,
        reported: u32,
        checked: &mut Checked,
    ) -> Result<(), String> {
        let reader = &self.reader;
        let rows = (0..8).flat_map(|j| (0..8).map(move |i| (block / 2 * 8 + j) * 16 + i));
        let luma: Samples = rows.map(|k| self.luma[k + block % 2 * 8]).collect();
        let (x, y) = reader.corner(block);
        let seed = (self.answer.vector[0], self.answer.vector[1]);
        let whole = |at: At| difference(&luma, &reader.square(8, x + at.0, y + at.1));
        let full = self.bounds.seeded(seed, whole);
        let sum = |vector: At| difference(&luma, &reader.luma_8(block, vector, SUMS));
        self.found(&full, vector, reported, sum, checked)
    }

    /// The sentences on a vector, its full-sample list being given.
    fn found(
        &self,
        full: &List,
        vector: At,
        reported: u32,
        mut sum: impl FnMut(At) -> u32,
        checked: &mut Checked,
    ) -> Result<(), String> {
        let own = sum(vector);
        if own != reported {
            return Err(format!("the sum is {own}, reported as {reported}"));
        }
        checked.sums += 1;
        let (low, high) = self.bounds.range();
        if [vector.0, vector.1].iter().any(|part| !(low..=high).contains(part)) {
            return Err(format!("{vector:?} is not in {low}..{high}"));
        }
        checked.ranges += 1;
        let sub = self.bounds.sub(full.best(), sum);
        let Some(place) = sub.entries.iter().position(|entry| entry.0 == vector) else {
            return Err(format!("{vector:?} is not on its list {:?}", sub.entries));
        };
        let less = sub.entries.iter().any(|entry| entry.1 < reported);
        if less || sub.entries[..place].iter().any(|entry| entry.1 <= reported) {
            return Err(format!("{vector:?} is not the first of least of {:?}", sub.entries));
        }
        checked.sub_lists += 1;
        checked.sub_entries += sub.entries.len();
        checked.full_lists += 1;
        checked.full_entries += full.entries.len();
        Ok(())
    }

    /// The sentences on levels.
    fn levels(&self, checked: &mut Checked) -> Result<(), String> {
        let events = &self.answer.events;
        let handed = Handed {
            lasts: &events.lasts,
            runs: &events.runs,
            levels: &events.levels,
            patterns: self.answer.patterns,
        };
        let read = self.reader.levels(&handed)?;
        for (block, levels) in read.chunks(64).enumerate() {
            self.block(block, levels, checked).map_err(|text| format!("block {block}: {text}"))?;
        }
        Ok(())
    }

    /// A block's levels are those of its coefficients, and under the second method near them.
    fn block(&self, block: usize, read: &[i32], checked: &mut Checked) -> Result<(), String> {
        for (place, (&level, f)) in read.iter().zip(self.coefficients(block)).enumerate() {
            let wanted = self.level(f, place);
            if level != wanted {
                return Err(format!("place {place}: level {level} is read, not {wanted} of {f}"));
            }
            checked.levels += 1;
            if self.coding.quantising.first_method == 0 {
                self.nearness(level, f, checked).map_err(|text| format!("{place}: {text}"))?;
            }
        }
        Ok(())
    }

    fn coefficients(&self, block: usize) -> Vec<i32> {
        let at = |j: usize, i: usize| self.residual[64 * block + 8 * j + i];
        let rows = std::array::from_fn(|j| std::array::from_fn(|i| at(j, i)));
        forward_dct_8x8(&rows, 8).concat()
    }

    /// The level of a coefficient at a place of its block.
    fn level(&self, f: i32, place: usize) -> i32 {
        let quantising = &self.coding.quantising;
        let q = quantising.quantiser as i32;
        let size = match quantising.first_method {
            0 => (f.abs() - q / 2).max(0) / (2 * q),
            _ => {
                let d = i32::from(quantising.weights[place]) * q;
                (16 * f.abs() - d).max(0) / (2 * d)
            }
        };
        (size * f.signum()).clamp(-2047, 2047)
    }

    fn nearness(&self, level: i32, f: i32, checked: &mut Checked) -> Result<(), String> {
        let q = self.coding.quantising.quantiser as i32;
        let sort = if q == 1 { 0 } else { 1 + q as usize % 2 };
        let inverse = self.reader.inverse(level);
        if inverse != saturate_fprime(inverse_quant_method2_coef(level, q as u32), 8) {
            return Err(format!("level {level} does not return the original's inverse"));
        }
        if level != 0 {
            let (apart, reach) = ((inverse - f).abs(), if q == 1 { 1 } else { 3 * (q / 2) });
            checked.near += 1;
            checked.farthest[sort] += usize::from(apart == reach);
            return (apart <= reach).then_some(()).ok_or_else(|| {
                format!("level {level} returns {apart} away from {f}, more than {reach}")
            });
        }
        let limit = 2 * q + q / 2;
        checked.dropped += 1;
        checked.largest[sort] += usize::from(f.abs() == limit - 1);
        let text = || format!("coefficient {f} has level 0, and is not below {limit}");
        (f.abs() < limit).then_some(()).ok_or_else(text)
    }
}

impl Checked {
    /// Prints the counts; an error if a long run left a sentence unchecked, or never came as far
    /// from a coefficient as a sentence allows.
    pub fn finish(&self, form: Form, calls: usize) -> Result<(), String> {
        let (c, name) = (self, form.name());
        println!(
            "{name}: demand 3 of {calls} answers: sums exact {}, both parts in range {}, first of \
             least on its sub-sample list {} ({} entries), begun at the winner of a full-sample \
             list {} ({} entries)",
            c.sums, c.ranges, c.sub_lists, c.sub_entries, c.full_lists, c.full_entries
        );
        println!(
            "{name}: demand 3 of {calls} answers: levels read back {}, non-zero and near {}, zero \
             with a small coefficient {}",
            c.levels, c.near, c.dropped
        );
        println!(
            "{name}: demand 3 of {calls} answers: as far as may be, for q 1, even, odd: non-zero \
             {:?}, zero {:?}",
            c.farthest, c.largest
        );
        let lists = [c.sums, c.ranges, c.sub_lists, c.full_lists, c.levels, c.near, c.dropped];
        let mut all = [&lists[..], &c.farthest[..], &c.largest[..]].concat();
        if form == Form::Made {
            println!("{name}: the reader reached the 384 samples coded against of {}", c.reached);
            all.push(c.reached);
        }
        if calls >= ENOUGH && all.contains(&0) {
            return Err(format!("{name}: a sentence of demand 3 was not checked to its bound"));
        }
        Ok(())
    }
}

/// The sum of absolute differences.
fn difference(one: &[i32], other: &[i32]) -> u32 {
    one.iter().zip(other).map(|(a, b)| a.abs_diff(*b)).sum()
}

/// Samples of a plane, its last column and row repeated.
fn square(plane: &Source, side: usize, x: usize, y: usize) -> Samples {
    let at = |k: usize| {
        let (x, y) = ((x + k % side).min(plane.width - 1), (y + k / side).min(plane.height - 1));
        i32::from(plane.samples[y * plane.width + x])
    };
    (0..side * side).map(at).collect()
}

/// Source less prediction, four blocks of luma, Cb, Cr.
fn residual(m: &Macroblock, luma: &[i32]) -> Vec<i32> {
    let mut residual = vec![0; 384];
    for (k, (sample, predicted)) in luma.iter().zip(m.prediction.y).enumerate() {
        let (i, j) = (k % 16, k / 16);
        let block = j / 8 * 2 + i / 8;
        residual[64 * block + j % 8 * 8 + i % 8] = sample - i32::from(*predicted);
    }
    let (width, height) = (m.source.width.div_ceil(2), m.source.height.div_ceil(2));
    for (plane, predicted, from) in [(m.cb, m.prediction.cb, 256), (m.cr, m.prediction.cr, 320)] {
        let half = Source { samples: plane, width, height };
        let source = square(&half, 8, 8 * m.column, 8 * m.row);
        for k in 0..64 {
            residual[from + k] = source[k] - i32::from(predicted[k]);
        }
    }
    residual
}
