//! Luma prediction by mode: `predict_luma_block`, `predict_luma_macroblock` and
//! `predict_luma_macroblock_4mv`. The Rust has them in no file at hand, so they are held to the rule
//! over its two interpolations: one block by the mode's, a macroblock as `pvop_mv` has it.

use crate::ask::{Block, Reference};
use crate::bvop_prediction::BVopSampleMode;
use crate::counted::{held as marks, strings, Counted, Mark};
use crate::damage::{self, Store};
use crate::guard::{held, Lent};
use crate::options::Options;
use crate::pvop_mv::{predict_luma_macroblock, PvopMbMotion};
use crate::random::Random;
use crate::sample::call::{Call as Interpolation, Function as Interpolator};
use crate::sample::plane::{self, Plane, SHAPES};
use crate::sample::{damage as spoil, refusal, valid};
use crate::summary::Row;
use crate::tally::Tally;
use crate::turns;
use hencouch::raw;

const PLANES: &str = "planes";
const MODES: &str = "mode, rounding bit and sides";
const FRACTIONS: &str = "fractions";
const FOUR: &str = "four vectors";
const FOUR_NAMES: [&str; 3] = ["all alike", "all different", "told from one copy of 17 x 17"];

#[derive(Clone, Copy, PartialEq)]
enum Function {
    Block,
    One,
    Four,
}

impl Function {
    fn name(self) -> &'static str {
        match self {
            Function::Block => "predict_luma_block",
            Function::One => "predict_luma_macroblock",
            Function::Four => "predict_luma_macroblock_4mv",
        }
    }

    fn numbers(self) -> &'static [u8] {
        match self {
            Function::Block => &[2, 3, 4, 5, 8, 12, 14, 31],
            _ => &[2, 3, 4, 5, 8, 12, 31],
        }
    }
}

/// A block's interpolation, which for a macroblock is of 16 x 16, with the number of the mode; of
/// four vectors its own vector does not count.
#[derive(Clone, Copy)]
struct Call<'a> {
    function: Function,
    mode: u32,
    whole: Interpolation<'a>,
    vectors: [i32; 8],
}

impl<'a> Call<'a> {
    /// The interpolations that it is made of.
    fn parts(&self) -> Vec<Interpolation<'a>> {
        if self.function != Function::Four {
            return vec![self.whole];
        }
        let part = |b: usize| {
            let mut part = self.whole;
            let (right, down) = (8 * (b as i32 % 2), 8 * (b as i32 / 2));
            let Block { origin_x, origin_y, .. } = self.whole.block;
            part.block.origin_x = origin_x.saturating_add(right);
            part.block.origin_y = origin_y.saturating_add(down);
            (part.block.mv_x, part.block.mv_y) = (self.vectors[2 * b], self.vectors[2 * b + 1]);
            (part.block.block_w, part.block.block_h) = (8, 8);
            part
        };
        (0..4).map(part).collect()
    }

    /// All reasons to turn the call back, in order. The lengths and sides are those of the whole.
    fn reasons(&self) -> Vec<u8> {
        let far = self.parts().iter().any(|part| refusal::reasons(part).contains(&8));
        let mut all = refusal::reasons(&self.whole);
        all.retain(|&number| number != 8 && (number != 3 || self.mode == 1));
        all.extend(far.then_some(8));
        all.extend((self.mode > 1).then_some(2));
        all.extend((self.whole.block.rounding > 1).then_some(31));
        all.sort();
        all
    }

    fn ask_library(&self, out: &mut [u8]) -> u8 {
        let Reference { samples, width, height, stride } = self.whole.reference;
        let (mode, bits) = (self.mode, self.whole.bits_per_pixel);
        let Block { mv_x, mv_y, origin_x, origin_y, block_w, block_h, rounding } = self.whole.block;
        match self.function {
            Function::Block => raw::predict_luma_block(
                samples, width, height, stride, mode, bits, mv_x, mv_y, origin_x, origin_y,
                block_w, block_h, rounding, out,
            ),
            Function::One => raw::predict_luma_macroblock(
                samples, width, height, stride, mode, bits, mv_x, mv_y, origin_x, origin_y,
                rounding, out,
            ),
            Function::Four => raw::predict_luma_macroblock_4mv(
                samples,
                width,
                height,
                stride,
                mode,
                bits,
                &self.vectors,
                origin_x,
                origin_y,
                rounding,
                out,
            ),
        }
    }

    /// For a call with nothing wrong.
    fn wanted(&self) -> Vec<u8> {
        let Block { mv_x, mv_y, origin_x, origin_y, rounding, .. } = self.whole.block;
        let motion = match self.function {
            Function::Block => return self.whole.ask_original(),
            Function::One => PvopMbMotion::one(mv_x, mv_y),
            Function::Four => PvopMbMotion::four(&self.vectors),
        };
        let mode = BVopSampleMode::of(self.mode, self.whole.bits_per_pixel);
        let vop = self.whole.vop();
        let luma = predict_luma_macroblock(motion, &vop, origin_x, origin_y, rounding, mode);
        luma.expect("vectors always give a prediction").to_vec()
    }

    fn check(&self, reply: u8, salt: u8) -> Result<Vec<u8>, String> {
        let mut lent = Lent::<u8>::new(self.whole.out_len, salt);
        let got = self.ask_library(lent.area());
        let wanted = if reply == 0 { self.wanted() } else { Vec::new() };
        held(&lent, got, reply, &wanted).map_err(|text| {
            let Call { mode, whole, vectors, .. } = self;
            format!("MISMATCH: {text}\nmode: {mode}, vectors: {vectors:?}\n{whole}")
        })?;
        Ok(wanted)
    }

    /// Whether one block of 16 x 16 gives another answer, where the four vectors are one.
    fn told_from_one_copy(&self, wanted: &[u8]) -> bool {
        let mut whole = self.whole;
        (whole.block.mv_x, whole.block.mv_y) = (self.vectors[0], self.vectors[1]);
        self.alike() && whole.ask_original() != wanted
    }

    fn alike(&self) -> bool {
        self.vectors.chunks(2).all(|vector| vector == &self.vectors[..2])
    }
}

pub fn compare(options: &Options) -> Vec<Row> {
    let rows = [Function::Block, Function::One, Function::Four].map(|function| {
        let mut row = Row::new(function.name());
        let part = 0x710 + function as u64;
        let mut random = Random::new(options.seed.wrapping_add(part << 48));
        valid_calls(function, options, &mut row, &mut random);
        damaged_calls(function, options, &mut row, &mut random);
        row
    });
    rows.into()
}

fn valid_calls(function: Function, options: &Options, row: &mut Row, random: &mut Random) {
    let mut counted = Counted::new(function.name(), all_marks(function));
    turns::calls(options.valid, plane::CALLS, row, random, |plane, row, random| {
        let call = valid_call(function, plane, random);
        if let Some(wanted) = row.valid(call.check(0, random.byte())) {
            counted.count(marks_of(&call, plane.shape, &wanted));
        }
    });
    row.covered(counted.finish());
}

fn damaged_calls(function: Function, options: &Options, row: &mut Row, random: &mut Random) {
    let store = Store::random(random);
    // A mode that is neither is not quarter mode, so 2 and 3 exclude each other.
    let tally = Tally::new(function.name(), function.numbers()).without(1);
    tally.run(row, options.refused, || {
        let call = damaged(function, &store.samples, random);
        let reasons = call.reasons();
        let found = call.check(reasons[0], random.byte());
        (reasons, found)
    });
    row.unchanged(store.unchanged());
}

fn valid_call<'a>(function: Function, plane: &'a Plane, random: &mut Random) -> Call<'a> {
    let interpolator = random.pick(&[Interpolator::Half, Interpolator::Quarter]);
    let whole = valid::call(interpolator, plane, random);
    let spread = random.pick(&[0, 0, 1, 9, 2047]);
    let vectors = std::array::from_fn(|part| {
        let own = if part % 2 == 0 { whole.block.mv_x } else { whole.block.mv_y };
        (own + random.int(-spread, spread)).clamp(-2048, 2047)
    });
    macroblock(Call { function, mode: interpolator.mode(), whole, vectors }, random)
}

/// Of a macroblock the sides, and of four vectors an origin whose blocks to the right and below are
/// within the limits too. A rounding type is 0 or 1; in half mode any number of bits will do.
fn macroblock<'a>(mut call: Call<'a>, random: &mut Random) -> Call<'a> {
    let whole = &mut call.whole;
    whole.block.rounding &= 1;
    if call.function != Function::Block {
        (whole.block.block_w, whole.block.block_h, whole.out_len) = (16, 16, 256);
    }
    if call.function == Function::Four {
        whole.block.origin_x = whole.block.origin_x.min(4096 - 8);
        whole.block.origin_y = whole.block.origin_y.min(4096 - 8);
    }
    if call.mode == 0 && random.chance(50) {
        whole.bits_per_pixel = damage::bits(random);
    }
    call
}

fn damaged<'a>(function: Function, store: &'a [u8], random: &mut Random) -> Call<'a> {
    let mut numbers = damage::choose(function.numbers(), random);
    // The sides before the length, which depends on them.
    numbers.sort_by_key(|&number| (number == 12, number));
    let quarter = numbers.contains(&3) || random.chance(50);
    let interpolator = if quarter { Interpolator::Quarter } else { Interpolator::Half };
    let whole = spoil::sound(interpolator, store, random);
    let vectors = std::array::from_fn(|_| random.int(-2048, 2047));
    let mut call = Call { function, mode: interpolator.mode(), whole, vectors };
    call = macroblock(call, random);
    for number in numbers {
        match number {
            2 => call.mode = damage::mode(random),
            8 if function == Function::Four => four_places(&mut call, random),
            31 => call.whole.block.rounding = damage::rounding(random),
            _ => spoil::spoil(&mut call.whole, number, random),
        }
    }
    call
}

/// A part of a vector beyond its limits, or an origin whose blocks are, all or some.
fn four_places(call: &mut Call, random: &mut Random) {
    let far = random.pick(&[i32::MIN, i32::MAX, -4097, 4097]);
    let number = match random.size(0, 3) {
        0 => &mut call.whole.block.origin_x,
        1 => &mut call.whole.block.origin_y,
        _ => {
            call.vectors[random.size(0, 7)] = random.pick(&[-2049, 2048, -2049, 2048, far]);
            return;
        }
    };
    *number = random.pick(&[-4097, 4089, 4096, 4097, far]);
}

fn settings(call: &Call) -> String {
    let Block { block_w, block_h, rounding, .. } = call.whole.block;
    format!("{} {} {block_w} x {block_h}", call.mode, rounding & 1)
}

fn all_marks(function: Function) -> Vec<(&'static str, Vec<String>)> {
    let sides: &[&str] = match function {
        Function::Block => &["8 x 8", "8 x 16", "16 x 8", "16 x 16"],
        _ => &["16 x 16"],
    };
    let modes = sides.iter().flat_map(|s| ["0 0", "0 1", "1 0", "1 1"].map(|m| format!("{m} {s}")));
    let places = |units: usize| (0..units * units).map(move |k| (units, k / units, k % units));
    let fractions = places(2).chain(places(4)).map(|(u, x, y)| format!("{x},{y} of {u}"));
    let mut all = vec![
        (PLANES, strings(&SHAPES)),
        (MODES, modes.collect()),
        (FRACTIONS, fractions.collect()),
    ];
    if function == Function::Four {
        all.push((FOUR, strings(&FOUR_NAMES)));
    }
    all
}

fn marks_of(call: &Call, shape: usize, wanted: &[u8]) -> Vec<Mark> {
    let mut all = vec![(PLANES, SHAPES[shape].to_string()), (MODES, settings(call))];
    for part in call.parts() {
        let (x, y) = part.fractions();
        all.push((FRACTIONS, format!("{x},{y} of {}", part.function.units())));
    }
    if call.function == Function::Four {
        let vectors: Vec<&[i32]> = call.vectors.chunks(2).collect();
        let different = (0..4).all(|i| !vectors[..i].contains(&vectors[i]));
        let held = [call.alike(), different, call.told_from_one_copy(wanted)];
        all.extend(marks(FOUR, FOUR_NAMES.into_iter().zip(held).collect()));
    }
    all
}
