//! `broodline`, the program: random clips, each run whole, with bytes left over, cut somewhere and
//! damaged. All that it prints is compared byte by byte with what the originals put together would
//! print, and it has to end without an error. The scan is not told by an output, as the count of
//! events is the same in all three.

mod check;
mod cut;
mod damage;
mod marks;
pub mod moving;

use crate::broodline::{Header, Program, HEADER, NUMBERS};
use crate::counted::Counted;
use crate::options::Options;
use crate::random::Random;
use crate::summary::Row;
use crate::tally::Tally;
use check::Checker;
use moving::Moving;

const NAME: &str = "broodline";

/// A clip takes as long as many macroblocks, so there is one for every so many valid calls that are
/// asked for.
const SHARE: usize = 100;

/// One clip of so many is also run with bytes left over.
const LEFT_OVER: usize = 4;

/// From so many clips on everything that is counted has to be covered.
const ENOUGH: usize = 2_000;

pub fn compare(options: &Options) -> Vec<Row> {
    let mut row = Row::new(NAME);
    match Program::at(&options.broodline) {
        Ok(program) => clips(Checker::new(program, options.seed), options, &mut row),
        Err(text) => row.covered(Err(text)),
    }
    vec![row]
}

fn clips(mut checker: Checker, options: &Options, row: &mut Row) {
    let mut random = Random::new(options.seed.wrapping_add(0x400 << 48));
    let mut counted = Counted::new(NAME, marks::all()).naming("clips equal", ENOUGH);
    // Damaged headers that are whole: every reason alone, and before each later one.
    let mut tally = Tally::new(NAME, NUMBERS).enough(ENOUGH / 2);
    for turn in 0..options.valid / SHARE {
        let clip = Moving::random(turn, &mut random);
        checker.clip = turn;
        let mut check = |kind, input: &[u8], counted: &mut Counted, random: &mut Random| {
            checker.check(kind, input, counted, random, row)
        };
        if let Some(text) = check("whole", &clip.bytes, &mut counted, &mut random) {
            counted.count(marks::of(&clip, &text));
        }
        if turn % LEFT_OVER == 0 {
            let input = damage::left_over(&clip.bytes, &mut random);
            check("left over", &input, &mut counted, &mut random);
        }
        let at = cut::random(turn, &clip.header, &mut random);
        counted.add(marks::CUTS, cut::name(&clip.header, at));
        check("cut", &clip.bytes[..at], &mut counted, &mut random);
        let (kind, input) = damage::random(turn, &clip, &mut random);
        check(kind, &input, &mut counted, &mut random);
        if let Some(bytes) = input.first_chunk::<HEADER>() {
            let reasons = Header::read(*bytes).reasons();
            if !reasons.is_empty() {
                tally.count(&reasons);
            }
        }
    }
    row.covered(tally.finish());
    row.covered(counted.finish());
}
