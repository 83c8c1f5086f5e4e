//! The two searches: `estimate_motion` and `estimate_motion_4mv`.

pub mod call;
mod check;
pub mod contents;
mod coverage;
mod damage;
mod form;
mod listed;
pub mod marks;
pub mod refusal;
pub mod scene;
pub mod shape;
mod sums;
pub mod valid;
mod walk;

use crate::damage::Store;
use crate::options::Options;
use crate::random::Random;
use crate::summary::Row;
use crate::tally::Tally;
use crate::turns;
use call::Function;
use check::check;
use coverage::Coverage;
use scene::Scene;

const CALLS_PER_SCENE: usize = 5;

/// A search takes a hundred times as long as a block's prediction, so there is one for every so
/// many valid calls that are asked for.
const SHARE: usize = 10;

pub fn compare(options: &Options) -> Vec<Row> {
    let rows = [Function::One, Function::Four].map(|function| {
        let mut row = Row::new(function.name());
        row.listed(listed::compare(function));
        valid_calls(function, options, &mut row);
        damaged_calls(function, options, &mut row);
        row
    });
    rows.into()
}

/// Each part has its own generator, so that the count of one doesn't change the calls of another.
fn generator(options: &Options, function: Function, part: u64) -> Random {
    let part = 0x200 + part + 2 * (function == Function::Four) as u64;
    Random::new(options.seed.wrapping_add(part << 48))
}

fn valid_calls(function: Function, options: &Options, row: &mut Row) {
    let mut random = generator(options, function, 0);
    let mut coverage = Coverage::new(function);
    let count = options.valid / SHARE;
    turns::calls(count, CALLS_PER_SCENE, row, &mut random, |scene: &Scene, row, random| {
        let call = valid::call(function, scene, random);
        let found = check(&call, 0, random.byte())
            .map_err(|text| format!("picture {:?}, {}\n{text}", scene.kind, scene.shape));
        if let Some(answer) = row.valid(found) {
            row.covered(coverage.count(&call, scene, &answer));
        }
    });
    row.covered(coverage.finish());
}

fn damaged_calls(function: Function, options: &Options, row: &mut Row) {
    let mut random = generator(options, function, 1);
    let store = Store::random(&mut random);
    // A mode that is neither is not quarter mode, so 2 and 3 exclude each other.
    let tally = Tally::new(function.name(), refusal::numbers(function)).without(1);
    tally.run(row, options.refused, || {
        let call = damage::call(function, &store.samples, &mut random);
        let reasons = refusal::reasons(&call);
        let found = check(&call, reasons[0], random.byte());
        (reasons, found)
    });
    row.unchanged(store.unchanged());
}
