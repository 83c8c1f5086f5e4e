//! Runs that no opening gave, and sides that none may have: `open`, `next_place` and `close` answer
//! every one of them, and a step refuses for the run before it looks at its input.

use super::calls::{self, ended};
use super::{stepped, Rows};
use crate::ask::{Coding, Run};
use crate::counted::{held as marks, strings, Counted, Mark};
use crate::damage::choose;
use crate::macroblock::planes::Planes;
use crate::macroblock::whole::call::{Call, Form};
use crate::macroblock::whole::{damage, refusal};
use crate::options::Options;
use crate::random::Random;
use crate::tally::Tally;

/// A step's name, and its numbers in the order in which they are looked at.
fn entry(form: Form) -> (&'static str, &'static [u8]) {
    match form {
        Form::Lent => ("step", &[21, 22, 1, 2, 3, 4, 5, 6, 7, 10, 11, 12, 14]),
        Form::Made => ("step_predicted", &[21, 22, 1, 2, 3, 4, 5, 6, 7, 10, 11, 12, 14, 31]),
    }
}

const RUNS: &str = "runs";
const RUN_NAMES: [&str; 6] =
    ["one before the end", "at the end", "past it", "no columns", "no rows", "product above 2^64"];

pub fn compare(options: &Options, rows: &mut Rows, random: &mut Random) {
    let mut counted = Counted::new("forged runs", vec![(RUNS, strings(&RUN_NAMES))]);
    // Every other run is at its end, and so is a valid call of close.
    for _ in 0..2 * options.valid.max(options.refused) {
        let run = run(random);
        counted.count(marks_of(&run));
        let (reply, found) = calls::close(&run, random.byte());
        rows.close.called(reply, found);
        let (reply, found) = calls::next_place(&run, random.byte());
        rows.next_place.called(reply, found);
        let (reply, found) = calls::open(opened(random), opened(random), random.byte());
        rows.open.called(reply, found);
    }
    rows.close.covered(counted.finish());
}

/// A side for `open`: within the bounds and out of them.
fn opened(random: &mut Random) -> usize {
    let any = random.size(1, 4096);
    let far = random.bits() as usize;
    random.pick(&[1, 16, 4095, 4096, any, any, any, any, any, any, 0, 4097, usize::MAX, far])
}

/// Sides and a place of any size, the place often about the end.
fn run(random: &mut Random) -> Run {
    let mut side = || {
        let any = random.bits() >> random.pick(&[0, 8, 32, 50, 60]);
        random.pick(&[0, 1, 15, 16, 17, 176, 4096, u64::MAX, u64::MAX - 15, 1 << 36, any, any])
    };
    let (width, height) = (side(), side());
    let (columns, rows) = (width.div_ceil(16), height.div_ceil(16));
    let end = columns.wrapping_mul(rows);
    let any = random.bits() >> random.pick(&[0, 30, 58]);
    let given =
        random.pick(&[end, end, end.wrapping_sub(1), end.wrapping_add(1), 0, u64::MAX, any]);
    [width, height, given, random.bits(), random.bits()]
}

fn marks_of(run: &Run) -> Vec<Mark> {
    let before = [run[0], run[1], run[2].wrapping_sub(1), 0, 0];
    let after = [run[0], run[1], run[2].wrapping_add(1), 0, 0];
    let all = u128::from(run[0].div_ceil(16)) * u128::from(run[1].div_ceil(16));
    let held = [
        !ended(run) && ended(&after) && run[2] < u64::MAX,
        ended(run) && run[2] > 0 && !ended(&before),
        ended(run) && run[2] > 0 && ended(&before),
        run[0] == 0,
        run[1] == 0,
        all > u128::from(u64::MAX),
    ];
    marks(RUNS, RUN_NAMES.into_iter().zip(held).collect())
}

/// Steps with something wrong with the run or the input, or both.
pub fn refused_steps(form: Form, options: &Options, rows: &mut Rows, random: &mut Random) {
    let planes = Planes::new(random);
    let (name, all) = entry(form);
    // A mode that is neither is not quarter mode, so 2 and 3 exclude each other.
    let tally = Tally::new(name, all).without(1);
    tally.run(rows.step(form), options.refused, || {
        let numbers = choose(all, random);
        let weights = damage::weights(&numbers, random);
        let of_run = |number: &u8| [21, 22].contains(number);
        let input: Vec<u8> = numbers.iter().copied().filter(|number| !of_run(number)).collect();
        let call = damage::call(form, &input, &planes, &weights, random);
        let run = run_of(&numbers, &call.coding, random);
        let reasons = reasons(&run, &call);
        let found = stepped(&run, &call, reasons[0], random).map(|_| ());
        (reasons, found)
    });
    rows.step(form).unchanged(planes.unchanged());
}

/// A run of the call's sides at one of its macroblocks; for 22 of other sides, for 21 at its end.
fn run_of(numbers: &[u8], coding: &Coding, random: &mut Random) -> Run {
    let source = &coding.search.source;
    let mut run = [source.width as u64, source.height as u64, 0, random.bits(), random.bits()];
    if numbers.contains(&22) {
        let side = random.size(0, 1);
        let other = random.pick(&[run[side].wrapping_add(1), run[side] ^ 1 << 32, 16, 4096]);
        run[side] = if other == run[side] { other + 1 } else { other };
    }
    let end = u128::from(run[0].div_ceil(16)) * u128::from(run[1].div_ceil(16));
    let end = u64::try_from(end).unwrap_or(u64::MAX);
    run[2] = match numbers.contains(&21) {
        true => random.pick(&[end, end, end.saturating_add(1), u64::MAX]),
        false => random.bits() % end.max(1),
    };
    run
}

/// All reasons to turn a step back, in order.
fn reasons(run: &Run, call: &Call) -> Vec<u8> {
    let source = &call.coding.search.source;
    let other = (run[0], run[1]) != (source.width as u64, source.height as u64);
    let mut all: Vec<u8> = Vec::new();
    all.extend(ended(run).then_some(21));
    all.extend(other.then_some(22));
    // The place is the run's, and so never beyond its source.
    all.extend(refusal::reasons(call).into_iter().filter(|&number| number != 8));
    all
}
