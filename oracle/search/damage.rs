//! Random calls with something wrong: one thing alone, or several at once, so that the order in
//! which the refusals are looked at shows.

use super::call::{Call, Function};
use super::refusal;
use crate::ask::{Reference, Search, Source};
use crate::damage::{bits, choose, cut, fcode, geometry, mode, place, shorten, sides};
use crate::random::Random;

pub fn call<'a>(function: Function, store: &'a [u8], random: &mut Random) -> Call<'a> {
    let mut call = sound(function, store, random);
    for number in choose(refusal::numbers(function), random) {
        match number {
            1 => call.search.fcode = fcode(random),
            2 => call.search.mode = mode(random),
            3 => (call.search.mode, call.search.bits_per_pixel) = (1, bits(random)),
            4 => geometry(&mut call.search.reference, random),
            5 => cut(&mut call.search.reference, random),
            6 => sides(&mut call.search.source, random),
            7 => shorten(&mut call.search.source, random),
            8 => {
                let Search { source, column, row, .. } = &mut call.search;
                place(source, column, row, random)
            }
            9 => seed(&mut call, random),
            _ => lengths(&mut call, random),
        }
    }
    call
}

/// A call with nothing wrong. Its samples are the whole store, longer than needed.
fn sound<'a>(function: Function, samples: &'a [u8], random: &mut Random) -> Call<'a> {
    let (width, height) = (random.size(1, 40), random.size(1, 40));
    let source = Source { samples, width, height };
    let (column, row) = (random.size(0, (width - 1) / 16), random.size(0, (height - 1) / 16));
    let (width, height) = (random.size(1, 40), random.size(1, 40));
    let reference = Reference { samples, width, height, stride: width + random.size(0, 5) };
    let mode = random.size(0, 1) as u32;
    // In half mode any number of bits will do.
    let bits_per_pixel = if mode == 1 { random.int(1, 8) as u32 } else { bits(random) };
    let fcode = random.int(1, 7) as u32;
    let (low, high) = refusal::range(fcode);
    let search = Search { source, column, row, reference, mode, bits_per_pixel, fcode };
    Call::new(function, search, (random.int(low, high), random.int(low, high)))
}

/// One or both parts of the seed beyond the range.
fn seed(call: &mut Call, random: &mut Random) {
    let (low, high) = refusal::range(call.search.fcode);
    let extremes = [i32::MIN, i32::MAX, random.int(2048, i32::MAX), random.int(i32::MIN, -2049)];
    let which = random.size(1, 3);
    for (number, part) in [(&mut call.seed.0, 1), (&mut call.seed.1, 2)] {
        if which & part != 0 {
            let far = random.pick(&extremes);
            *number = random.pick(&[low - 1, high + 1, low - 1, high + 1, far]);
        }
    }
}

/// One or both areas of another length than the answer's.
fn lengths(call: &mut Call, random: &mut Random) {
    let other = |len: usize, random: &mut Random| loop {
        let new = random.pick(&[0, 1, 2, 3, 4, 5, 7, 8, 9, 16, len - 1, len + 1]);
        if new != len {
            return new;
        }
    };
    let which = random.size(1, 3);
    if which & 1 == 1 {
        call.vectors_len = other(call.vectors_len, random);
    }
    if which & 2 == 2 {
        call.sums_len = other(call.sums_len, random);
    }
}
