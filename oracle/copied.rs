//! One sample and a block of samples of a reference, clamped into it: `fetch_clamped`, against the
//! original's, and `copy_block`, which in the Rust is part of a private type. It is held to the rule
//! written out here: of each sample the column and the row, clamped, as exact numbers.

use crate::ask::Reference;
use crate::counted::{held as marks, strings, Counted, Mark};
use crate::damage::{self, bad_geometry, beyond_32_bits, last_sample, Store};
use crate::guard::{held, Lent};
use crate::half_sample::ReferenceVop;
use crate::options::Options;
use crate::random::Random;
use crate::sample::plane::{self, Plane, SHAPES};
use crate::summary::Row;
use crate::tally::Tally;
use crate::turns;
use hencouch::raw;

const PLANES: &str = "planes";
const ACROSS: &str = "across";
const DOWN: &str = "down";
const LIES: [&str; 4] = ["before", "within", "past the end", "at an end of all numbers"];
const SIDES: &str = "sides";
const SIDE_NAMES: [&str; 5] = ["no samples", "1 x 1", "8 x 8", "17 x 17", "others"];

#[derive(Clone, Copy, PartialEq)]
enum Function {
    Fetch,
    Copy,
}

impl Function {
    fn name(self) -> &'static str {
        match self {
            Function::Fetch => "fetch_clamped",
            Function::Copy => "copy_block",
        }
    }

    fn numbers(self) -> &'static [u8] {
        match self {
            Function::Fetch => &[4, 5],
            Function::Copy => &[4, 5, 12],
        }
    }
}

/// A single sample is a block of one, whose length is right.
struct Call<'a> {
    function: Function,
    reference: Reference<'a>,
    x: i32,
    y: i32,
    block_w: usize,
    block_h: usize,
    out_len: usize,
}

impl Call<'_> {
    /// All reasons to turn the call back, in order.
    fn reasons(&self) -> Vec<u8> {
        let r = &self.reference;
        let area = self.block_w as u128 * self.block_h as u128;
        let all = [
            (4, bad_geometry(r)),
            (5, r.samples.len() as u128 <= last_sample(r)),
            (12, self.out_len as u128 != area),
        ];
        all.iter().filter(|reason| reason.1).map(|reason| reason.0).collect()
    }

    fn check(&self, reply: u8, salt: u8) -> Result<(), String> {
        let Reference { samples, width, height, stride } = self.reference;
        let Call { x, y, block_w, block_h, .. } = *self;
        let mut lent = Lent::<u8>::new(self.out_len, salt);
        let out = lent.area();
        let got = match self.function {
            Function::Fetch => {
                raw::fetch_clamped(samples, width, height, stride, x, y, &mut out[0])
            }
            Function::Copy => {
                raw::copy_block(samples, width, height, stride, x, y, block_w, block_h, out)
            }
        };
        let wanted = if reply == 0 { self.wanted() } else { Vec::new() };
        held(&lent, got, reply, &wanted)
            .map_err(|text| format!("MISMATCH: {text}\n{}", self.text()))
    }

    fn wanted(&self) -> Vec<u8> {
        let Reference { samples, width, height, stride } = self.reference;
        if self.function == Function::Fetch {
            let vop = ReferenceVop::with_stride(samples, width, height, stride);
            return vec![vop.expect("a reference within the bounds").fetch_clamped(self.x, self.y)];
        }
        let clamp = |first: i32, more: usize, side: usize| {
            (i128::from(first) + more as i128).clamp(0, side as i128 - 1) as usize
        };
        let mut block = Vec::new();
        for j in 0..if self.out_len == 0 { 0 } else { self.block_h } {
            let row = clamp(self.y, j, height) * stride;
            block.extend((0..self.block_w).map(|i| samples[row + clamp(self.x, i, width)]));
        }
        block
    }

    /// All arguments but the samples.
    fn text(&self) -> String {
        let Reference { samples, width, height, stride } = self.reference;
        let Call { x, y, block_w, block_h, out_len, .. } = self;
        format!(
            "samples_len: {}, width: {width}, height: {height}, stride: {stride}\n\
             x: {x}, y: {y}, block_w: {block_w}, block_h: {block_h}, out_len: {out_len}",
            samples.len()
        )
    }
}

pub fn compare(options: &Options) -> Vec<Row> {
    let rows = [Function::Fetch, Function::Copy].map(|function| {
        let mut row = Row::new(function.name());
        let part = 0x700 + function as u64;
        let mut random = Random::new(options.seed.wrapping_add(part << 48));
        valid_calls(function, options, &mut row, &mut random);
        damaged_calls(function, options, &mut row, &mut random);
        row
    });
    rows.into()
}

fn valid_calls(function: Function, options: &Options, row: &mut Row, random: &mut Random) {
    let mut counted = Counted::new(function.name(), all_marks(function));
    turns::calls(options.valid, plane::CALLS, row, random, |plane: &Plane, row, random| {
        let call = valid(function, plane.reference(), random);
        row.valid(call.check(0, random.byte()));
        counted.count(marks_of(&call, plane.shape));
    });
    row.covered(counted.finish());
}

fn damaged_calls(function: Function, options: &Options, row: &mut Row, random: &mut Random) {
    let store = Store::random(random);
    Tally::new(function.name(), function.numbers()).run(row, options.refused, || {
        let call = damaged(function, &store.samples, random);
        let reasons = call.reasons();
        let found = call.check(reasons[0], random.byte());
        (reasons, found)
    });
    row.unchanged(store.unchanged());
}

fn valid<'a>(function: Function, reference: Reference<'a>, random: &mut Random) -> Call<'a> {
    let (x, y) = (place(reference.width, random), place(reference.height, random));
    let any = (random.size(1, 40), random.size(1, 40));
    // No samples at all, however many rows or columns of none.
    let none = random.pick(&[(0, 0), (0, 7), (7, 0), (0, usize::MAX), (usize::MAX, 0)]);
    let sides = [(1, 1), (8, 8), (9, 9), (16, 16), (17, 17), (1, 200), (200, 1), any, any, none];
    let (block_w, block_h) = match function {
        Function::Fetch => (1, 1),
        Function::Copy => random.pick(&sides),
    };
    Call { function, reference, x, y, block_w, block_h, out_len: block_w * block_h }
}

/// A column or a row: within, around an end, far, or at an end of all numbers.
fn place(side: usize, random: &mut Random) -> i32 {
    let side = side as i32;
    match random.size(0, 7) {
        0 | 1 => random.int(0, side - 1),
        2 => random.int(-20, 3),
        3 => random.int(side - 20, side + 3),
        4 => random.int(-9000, 9000),
        5 => random.int(i32::MIN, i32::MAX),
        6 => random.pick(&[i32::MIN, i32::MIN + 1, i32::MAX - 1, i32::MAX]),
        _ => random.pick(&[-1, 0, side - 1, side]),
    }
}

fn damaged<'a>(function: Function, store: &'a [u8], random: &mut Random) -> Call<'a> {
    let (width, height) = (random.size(1, 40), random.size(1, 40));
    let stride = width + random.size(0, 5);
    let mut call = valid(function, Reference { samples: store, width, height, stride }, random);
    for number in damage::choose(function.numbers(), random) {
        match number {
            4 => damage::geometry(&mut call.reference, random),
            5 => damage::cut(&mut call.reference, random),
            _ => length(&mut call, random),
        }
    }
    call
}

/// An output area of another length than the sides ask for, or sides whose product wraps around to
/// the length.
fn length(call: &mut Call, random: &mut Random) {
    let len = call.out_len;
    let any = random.size(0, 600);
    let other = random.pick(&[0, 1, 64, len.max(1) - 1, len + 1, any]);
    let wraps =
        [(1 << 63, 2, 0), (2, 1 << 63, 0), (usize::MAX, usize::MAX, 1), ((1 << 61) + 8, 8, 64)];
    if other == len || random.chance(30) {
        (call.block_w, call.block_h, call.out_len) = random.pick(&wraps);
    } else if random.chance(20) && len > 0 {
        (call.block_w, call.block_h) = (beyond_32_bits(call.block_w), call.block_h);
    } else {
        call.out_len = other;
    }
}

fn all_marks(function: Function) -> Vec<(&'static str, Vec<String>)> {
    let lies = strings(&LIES);
    let mut all = vec![(PLANES, strings(&SHAPES)), (ACROSS, lies.clone()), (DOWN, lies)];
    if function == Function::Copy {
        all.push((SIDES, strings(&SIDE_NAMES)));
    }
    all
}

fn marks_of(call: &Call, shape: usize) -> Vec<Mark> {
    let mut all = vec![(PLANES, SHAPES[shape].to_string())];
    let axes = [(ACROSS, call.x, call.reference.width), (DOWN, call.y, call.reference.height)];
    for (title, at, side) in axes {
        let past = i64::from(at) >= side as i64;
        let held = [at < 0, at >= 0 && !past, past, at == i32::MIN || at == i32::MAX];
        all.extend(marks(title, LIES.into_iter().zip(held).collect()));
    }
    if call.function == Function::Copy {
        let sides = (call.block_w, call.block_h);
        let name = match sides {
            _ if call.out_len == 0 => "no samples",
            (1, 1) => "1 x 1",
            (8, 8) => "8 x 8",
            (17, 17) => "17 x 17",
            _ => "others",
        };
        all.push((SIDES, name.to_string()));
    }
    all
}
