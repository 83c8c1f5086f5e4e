//! The forward transform: `forward_dct_8x8`, at 8 bits.

pub mod block;
mod check;
mod coverage;
mod damage;
mod listed;

use crate::options::Options;
use crate::random::Random;
use crate::summary::Row;
use crate::tally::Tally;
use block::Kind;
use check::check;

const NAME: &str = "forward_dct_8x8";

/// A call takes well below a microsecond, so there are two for each valid call that is asked for.
const TIMES: usize = 2;

pub fn compare(options: &Options) -> Vec<Row> {
    let mut row = Row::new(NAME);
    row.listed(listed::compare());
    valid_calls(options, &mut row);
    damaged_calls(options, &mut row);
    vec![row]
}

/// Each part has its own generator, so that the count of one doesn't change the calls of another.
fn generator(options: &Options, part: u64) -> Random {
    Random::new(options.seed.wrapping_add((part + 0x100) << 48))
}

fn valid_calls(options: &Options, row: &mut Row) {
    let mut random = generator(options, 0);
    let mut coverage = coverage::Valid::default();
    for turn in 0..TIMES * options.valid {
        let kind = Kind::ALL[turn % Kind::ALL.len()];
        let residual = block::residual(kind, &mut random);
        if let Some(wanted) = row.valid(check(&residual, 64, 0, random.byte())) {
            coverage.count(kind, &residual, &wanted);
        }
    }
    coverage.print();
    row.covered(coverage.complete());
}

fn damaged_calls(options: &Options, row: &mut Row) {
    let mut random = generator(options, 1);
    Tally::new(NAME, &[12, 13]).run(row, options.refused, || {
        let call = damage::call(&mut random);
        let reasons = damage::reasons(&call.residual, call.out_len);
        let found = check(&call.residual, call.out_len, reasons[0], random.byte());
        (reasons, found)
    });
}
