//! Calls made by hand: each bound on both sides, and the order of the refusals. The replies are
//! written here and not worked out, so that they also test `refusal::reasons`.

use super::call::{Answer, Call, Function};
use super::check::check;
use super::refusal;
use crate::ask::{Reference, Search, Source};
use crate::damage::by_hand;
use crate::random::Random;

type Case = (&'static str, u8, fn(&mut Call));

/// Compares all cases of one function and tells how many there are.
pub fn compare(function: Function) -> Result<usize, String> {
    every_sample_equal(function)?;
    let mut store = vec![0; 1 << 16];
    Random::new(1).fill(&mut store);
    let own = if function == Function::Four { FOUR } else { ONE };
    let lists = [MODES, REFERENCE, SOURCE, PLACES, ORDER, own];
    let all = lists.iter().copied().flatten().map(|&(name, reply, change)| {
        let mut call = sound(function, &store);
        change(&mut call);
        (name, reply, call)
    });
    let found = by_hand(all, refusal::reasons, |call, reply| check(call, reply, 0xA5).map(|_| ()));
    found.map(|cases| 1 + cases)
}

/// Every sample 100: vectors and sums 0.
fn every_sample_equal(function: Function) -> Result<(), String> {
    let samples = [100; 256];
    let mut call = sound(function, &samples);
    source(&mut call, 16, 16);
    plane(&mut call, 16, 16, 16);
    let count = function.count();
    if check(&call, 0, 0xA5)? == (Answer { vectors: vec![0; 2 * count], sums: vec![0; count] }) {
        return Ok(());
    }
    Err(format!("{}: every sample 100: vectors or sums are not 0", function.name()))
}

/// A call with nothing wrong: the first macroblock of a source of 20 x 10, a reference of 24 x 12
/// with stride 28; both are longer than needed.
fn sound(function: Function, samples: &[u8]) -> Call<'_> {
    let source = Source { samples, width: 20, height: 10 };
    let reference = Reference { samples, width: 24, height: 12, stride: 28 };
    let (mode, bits_per_pixel, fcode) = (1, 8, 2);
    let search = Search { source, column: 0, row: 0, reference, mode, bits_per_pixel, fcode };
    Call::new(function, search, (0, 0))
}

fn half(call: &mut Call, bits: u32) {
    (call.search.mode, call.search.bits_per_pixel) = (0, bits);
}

const MODES: &[Case] = &[
    ("fcode 0", 1, |c| c.search.fcode = 0),
    ("fcode 1", 0, |c| c.search.fcode = 1),
    ("fcode 7", 0, |c| c.search.fcode = 7),
    ("fcode 8", 1, |c| c.search.fcode = 8),
    ("1 in the low byte of fcode", 1, |c| c.search.fcode = 256 + 1),
    ("the largest fcode", 1, |c| c.search.fcode = u32::MAX),
    ("half", 0, |c| c.search.mode = 0),
    ("mode 2", 2, |c| c.search.mode = 2),
    ("1 in the low byte of the mode", 2, |c| c.search.mode = 256 + 1),
    ("mode 2, no bits", 2, |c| (c.search.mode, c.search.bits_per_pixel) = (2, 0)),
    ("no bits", 3, |c| c.search.bits_per_pixel = 0),
    ("1 bit", 0, |c| c.search.bits_per_pixel = 1),
    ("9 bits", 3, |c| c.search.bits_per_pixel = 9),
    ("8 in the low byte of the bits", 3, |c| c.search.bits_per_pixel = 256 + 8),
    ("half, no bits", 0, |c| half(c, 0)),
    ("half, 9 bits", 0, |c| half(c, 9)),
    ("half, the most bits", 0, |c| half(c, u32::MAX)),
];

fn plane(call: &mut Call, width: usize, height: usize, stride: usize) {
    let samples = call.search.reference.samples;
    call.search.reference = Reference { samples, width, height, stride };
}

fn cut_plane(call: &mut Call, len: usize) {
    call.search.reference.samples = &call.search.reference.samples[..len];
}

/// The last sample of the reference is number 11 * 28 + 23 = 331.
const REFERENCE: &[Case] = &[
    ("width 0", 4, |c| plane(c, 0, 12, 28)),
    ("height 0", 4, |c| plane(c, 24, 0, 28)),
    ("stride below the width", 4, |c| plane(c, 24, 12, 23)),
    ("stride is the width", 0, |c| plane(c, 24, 12, 24)),
    ("width 4096", 0, |c| plane(c, 4096, 12, 4096)),
    ("width 4097", 4, |c| plane(c, 4097, 12, 4097)),
    ("height 4096", 0, |c| plane(c, 10, 4096, 10)),
    ("height 4097", 4, |c| plane(c, 10, 4097, 10)),
    ("stride 8192", 0, |c| plane(c, 24, 5, 8192)),
    ("stride 8193", 4, |c| plane(c, 24, 5, 8193)),
    ("the largest stride", 4, |c| plane(c, 24, 1, usize::MAX)),
    ("24 in the low 32 bits of the width", 4, |c| plane(c, (1 << 32) + 24, 1, 28)),
    ("no reference", 5, |c| cut_plane(c, 0)),
    ("one reference sample too few", 5, |c| cut_plane(c, 331)),
    ("just enough of the reference", 0, |c| cut_plane(c, 332)),
    ("one by one", 0, |c| {
        plane(c, 1, 1, 1);
        cut_plane(c, 1)
    }),
];

fn source(call: &mut Call, width: usize, height: usize) {
    let samples = call.search.source.samples;
    call.search.source = Source { samples, width, height };
}

fn cut_source(call: &mut Call, len: usize) {
    call.search.source.samples = &call.search.source.samples[..len];
}

const SOURCE: &[Case] = &[
    ("source width 0", 6, |c| source(c, 0, 10)),
    ("source height 0", 6, |c| source(c, 20, 0)),
    ("source width 4096", 0, |c| source(c, 4096, 10)),
    ("source width 4097", 6, |c| source(c, 4097, 10)),
    ("source height 4096", 0, |c| source(c, 10, 4096)),
    ("source height 4097", 6, |c| source(c, 10, 4097)),
    ("sides whose product wraps to 0", 6, |c| source(c, 1 << 32, 1 << 32)),
    ("the largest sides", 6, |c| source(c, usize::MAX, usize::MAX)),
    ("one source sample", 0, |c| {
        source(c, 1, 1);
        cut_source(c, 1)
    }),
    ("no source", 7, |c| cut_source(c, 0)),
    ("one source sample too few", 7, |c| cut_source(c, 199)),
    ("just enough of the source", 0, |c| cut_source(c, 200)),
];

fn place(call: &mut Call, column: usize, row: usize) {
    (call.search.column, call.search.row) = (column, row);
}

const PLACES: &[Case] = &[
    ("column 1 of 20", 0, |c| place(c, 1, 0)),
    ("column 2 of 20", 8, |c| place(c, 2, 0)),
    ("row 1 of 10", 8, |c| place(c, 0, 1)),
    ("column 1 of 16", 8, |c| {
        source(c, 16, 10);
        place(c, 1, 0)
    }),
    ("column 1 of 17", 0, |c| {
        source(c, 17, 10);
        place(c, 1, 0)
    }),
    ("row 1 of 16", 8, |c| {
        source(c, 20, 16);
        place(c, 0, 1)
    }),
    ("row 1 of 17", 0, |c| {
        source(c, 20, 17);
        place(c, 0, 1)
    }),
    ("the last column of 4096", 0, |c| {
        source(c, 4096, 10);
        place(c, 255, 0)
    }),
    ("the last row of 4096", 0, |c| {
        source(c, 10, 4096);
        place(c, 0, 255)
    }),
    ("the largest column", 8, |c| place(c, usize::MAX, 0)),
    ("a column that is 0 when multiplied", 8, |c| place(c, 1 << 60, 0)),
    ("a row that is 0 in its low 32 bits", 8, |c| place(c, 0, 1 << 32)),
];

/// Everything wrong from one number of the list on, nothing before it; of 2 and 3 only one can be.
fn wrong_from(call: &mut Call, number: u8) {
    call.sums_len += 1;
    if number <= 9 {
        call.seed = (64, 0);
    }
    if number <= 8 {
        place(call, 2, 0);
    }
    if number <= 7 {
        cut_source(call, 199);
    }
    if number <= 6 {
        source(call, 20, 4097);
    }
    if number <= 5 {
        cut_plane(call, 331);
    }
    if number <= 4 {
        call.search.reference.stride = 8193;
    }
    if number <= 3 {
        call.search.bits_per_pixel = 9;
    }
    if number <= 2 {
        call.search.mode = 2;
    }
    if number <= 1 {
        call.search.fcode = 8;
    }
}

const ORDER: &[Case] = &[
    ("everything from 1 on", 1, |c| wrong_from(c, 1)),
    ("everything from 2 on", 2, |c| wrong_from(c, 2)),
    ("everything from 3 on", 3, |c| wrong_from(c, 3)),
    ("everything from 4 on", 4, |c| wrong_from(c, 4)),
    ("everything from 5 on", 5, |c| wrong_from(c, 5)),
    ("everything from 6 on", 6, |c| wrong_from(c, 6)),
    ("everything from 7 on", 7, |c| wrong_from(c, 7)),
    ("everything from 8 on", 8, |c| wrong_from(c, 8)),
    ("the lengths alone", 12, |c| wrong_from(c, 12)),
];

fn lengths(call: &mut Call, vectors_len: usize, sums_len: usize) {
    (call.vectors_len, call.sums_len) = (vectors_len, sums_len);
}

const ONE: &[Case] = &[
    ("a vector of 1", 12, |c| lengths(c, 1, 1)),
    ("a vector of 3", 12, |c| lengths(c, 3, 1)),
    ("a vector of 8", 12, |c| lengths(c, 8, 1)),
    ("no sum", 12, |c| lengths(c, 2, 0)),
    ("two sums", 12, |c| lengths(c, 2, 2)),
    ("lengths swapped", 12, |c| lengths(c, 1, 2)),
];

fn seed(call: &mut Call, fcode: u32, part: i32, other: i32) {
    call.search.fcode = fcode;
    call.seed = (part, other);
}

const FOUR: &[Case] = &[
    ("everything from 9 on", 9, |c| wrong_from(c, 9)),
    ("fcode 1, the least seed", 0, |c| seed(c, 1, -32, -32)),
    ("fcode 1, below the least seed", 9, |c| seed(c, 1, -33, 0)),
    ("fcode 1, the greatest seed", 0, |c| seed(c, 1, 31, 31)),
    ("fcode 1, above the greatest seed", 9, |c| seed(c, 1, 0, 32)),
    ("fcode 7, the least seed", 0, |c| seed(c, 7, -2048, -2048)),
    ("fcode 7, below the least seed", 9, |c| seed(c, 7, 0, -2049)),
    ("fcode 7, the greatest seed", 0, |c| seed(c, 7, 2047, 2047)),
    ("fcode 7, above the greatest seed", 9, |c| seed(c, 7, 2048, 0)),
    ("the least numbers", 9, |c| seed(c, 7, i32::MIN, i32::MIN)),
    ("the greatest numbers", 9, |c| seed(c, 7, i32::MAX, i32::MAX)),
    ("a seed of -1", 0, |c| seed(c, 2, -1, -1)),
    ("a seed of -5", 0, |c| seed(c, 2, -5, -5)),
    ("a vector of 2", 12, |c| lengths(c, 2, 4)),
    ("7 numbers", 12, |c| lengths(c, 7, 4)),
    ("9 numbers", 12, |c| lengths(c, 9, 4)),
    ("3 sums", 12, |c| lengths(c, 8, 3)),
    ("5 sums", 12, |c| lengths(c, 8, 5)),
    ("lengths swapped", 12, |c| lengths(c, 4, 8)),
];
