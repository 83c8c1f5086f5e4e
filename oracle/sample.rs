//! The two interpolations: `interpolate_block_into` and `interpolate_block_qpel_into`. Luma
//! prediction uses their planes, calls and refusals.

pub mod call;
mod check;
mod coverage;
pub mod damage;
mod listed;
pub mod plane;
pub mod refusal;
pub mod valid;

use crate::damage::Store;
use crate::options::Options;
use crate::random::Random;
use crate::summary::Row;
use crate::tally::Tally;
use crate::turns;
use call::Function;
use check::check;

pub fn compare(options: &Options) -> Vec<Row> {
    let rows = [Function::Half, Function::Quarter].map(|function| {
        let mut row = Row::new(function.name());
        row.listed(listed::compare(function));
        valid_calls(function, options, &mut row);
        damaged_calls(function, options, &mut row);
        row
    });
    rows.into()
}

/// Each part has its own generator, so that the count of one doesn't change the calls of another.
fn generator(options: &Options, function: Function, part: u64) -> Random {
    let part = part + 2 * (function == Function::Quarter) as u64;
    Random::new(options.seed.wrapping_add(part << 48))
}

fn valid_calls(function: Function, options: &Options, row: &mut Row) {
    let mut random = generator(options, function, 0);
    let mut coverage = coverage::Valid::default();
    turns::calls(options.valid, plane::CALLS, row, &mut random, |plane, row, random| {
        let call = valid::call(function, plane, random);
        row.valid(check(&call, 0, random.byte()));
        coverage.count(&call, plane);
    });
    coverage.print(function);
    row.covered(coverage.complete(function));
}

fn damaged_calls(function: Function, options: &Options, row: &mut Row) {
    let mut random = generator(options, function, 1);
    let store = Store::random(&mut random);
    let tally = Tally::new(function.name(), refusal::numbers(function));
    tally.run(row, options.refused, || {
        let call = damage::call(function, &store.samples, &mut random);
        let reasons = refusal::reasons(&call);
        let found = check(&call, reasons[0], random.byte());
        (reasons, found)
    });
    row.unchanged(store.unchanged());
}
