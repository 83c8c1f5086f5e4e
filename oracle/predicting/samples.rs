//! `predict_macroblock` and `predict_macroblock_4mv`: valid calls, each against the originals put
//! together, damaged ones, and some made by hand.

use super::call::Call;
use super::planes::Planes;
use super::{damage, generator, listed, marks, refusal, valid, Count};
use crate::counted::Counted;
use crate::damage::{planes, Store};
use crate::options::Options;
use crate::random::Random;
use crate::sample::plane;
use crate::summary::Row;
use crate::tally::Tally;
use crate::turns;

/// So many damaged calls have to cover everything that is counted of them.
const ENOUGH: usize = 20_000;

pub fn compare(count: Count, options: &Options) -> Row {
    let name = match count {
        Count::One => "predict_macroblock",
        Count::Four => "predict_macroblock_4mv",
    };
    let mut row = Row::new(name);
    row.listed(listed::compare(count));
    let mut counted = Counted::new(name, marks::all(count));
    let mut random = generator(options, count, 1);
    turns::calls(
        options.valid,
        plane::CALLS,
        &mut row,
        &mut random,
        |planes: &Planes, row, random| {
            let call = valid::call(count, planes, random);
            if let Some(Some(wanted)) = row.valid(call.check(0, random.byte())) {
                counted.count(marks::of(&call, planes.luma.shape));
                marks::count_forms(&call, &wanted, &mut counted);
            }
        },
    );
    row.covered(counted.finish());
    damaged_calls(name, count, options, &mut row);
    row
}

fn damaged_calls(name: &'static str, count: Count, options: &Options, row: &mut Row) {
    let mut random = generator(options, count, 2);
    let store = Store::random(&mut random);
    let mut counted = Counted::new(name, vec![planes::all()]).naming("damaged calls", ENOUGH);
    // A mode that is neither is not quarter mode, so 2 and 3 exclude each other.
    let tally = Tally::new(name, refusal::NUMBERS).without(1);
    tally.run(row, options.refused, || {
        let call = damage::call(count, &store.samples, &mut random);
        let (reasons, found) = refused(&call, &mut random);
        counted.count(planes::marks(&call.reference, reasons[0]));
        (reasons, found)
    });
    row.covered(counted.finish());
    row.unchanged(store.unchanged());
}

fn refused(call: &Call, random: &mut Random) -> (Vec<u8>, Result<(), String>) {
    let reasons = refusal::reasons(call);
    let found = call.check(reasons[0], random.byte()).map(|_| ());
    (reasons, found)
}
