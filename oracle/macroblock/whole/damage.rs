//! Random calls with something wrong: one thing alone, or several at once, so that the order in
//! which the refusals are looked at shows.

use super::call::{Call, Form};
use crate::ask::{Coding, Macroblock, Making, Prediction, Quantising};
use crate::ask::{Reference, Search, Source};
use crate::damage::{self, bits, fcode, mode, place, quantiser, rounding, scan, sides};
use crate::macroblock::planes::Planes;
use crate::macroblock::residual::{lengths, shorten};
use crate::random::Random;

/// A matrix: with a zero for 11, whatever its length; at times of another length for 12.
pub fn weights(numbers: &[u8], random: &mut Random) -> Vec<u8> {
    let other = numbers.contains(&12) && random.chance(30);
    let len = if other { random.pick(&[0, 1, 63, 65, 128]) } else { 64 };
    let mut weights: Vec<u8> = (0..len).map(|_| random.int(1, 255) as u8).collect();
    if numbers.contains(&11) && len > 0 {
        weights[random.size(0, len - 1)] = 0;
    }
    weights
}

pub fn call<'a>(
    form: Form,
    numbers: &[u8],
    planes: &'a Planes,
    weights: &'a [u8],
    random: &mut Random,
) -> Call<'a> {
    let mut call = sound(form, planes, weights, random);
    for &number in numbers {
        let c = &mut call.coding;
        match number {
            1 => c.search.fcode = fcode(random),
            2 => c.search.mode = mode(random),
            3 => (c.search.mode, c.search.bits_per_pixel) = (1, bits(random)),
            4 | 5 => reference(&mut call, number, random),
            6..=8 => source(c, number, random),
            10 => c.quantising.quantiser = quantiser(random),
            11 => c.quantising.first_method = random.pick(&[1, 2, 128, 255]),
            // The matrix may be of another length already.
            12 if weights.len() != 64 => {}
            12 if form == Form::Lent && random.chance(50) => {
                lengths(&mut c.prediction, planes.whole(0), random)
            }
            12 => {
                let area = random.size(0, 2);
                call.lens[area] = random.pick(&[0, 1, 64, 383, 385, 448]);
            }
            31 => {
                let spoiled = |making| Making { rounding: rounding(random), ..making };
                call.making = call.making.map(spoiled);
            }
            _ if random.chance(50) => c.quantising.scan = scan(random),
            _ => c.vectors = random.pick(&[0, 2, 3, 5, 256 + 1, 256 + 4, 1 << 31, u32::MAX]),
        }
    }
    call
}

/// Gives a coding reason 6, 7 or 8.
fn source(c: &mut Coding, number: u8, random: &mut Random) {
    match number {
        6 => sides(&mut c.search.source, random),
        7 => {
            let mut m: Macroblock = c.macroblock();
            shorten(&mut m, random);
            (c.search.source, c.cb, c.cr) = (m.source, m.cb, m.cr);
        }
        _ => {
            let Search { source, column, row, .. } = &mut c.search;
            place(source, column, row, random)
        }
    }
}

/// Gives a call reason 4 or 5, of the plane or the planes that it is told as its reference.
fn reference(call: &mut Call, number: u8, random: &mut Random) {
    let Some(mut reference) = call.reference() else {
        let luma = &mut call.coding.search.reference;
        return if number == 4 {
            damage::geometry(luma, random)
        } else {
            damage::cut(luma, random)
        };
    };
    match number {
        4 => damage::planes::sizes(&mut reference, random),
        _ => damage::planes::samples(&mut reference, random),
    }
    call.coding.search.reference = reference.luma;
    if let Some(making) = &mut call.making {
        (making.cb, making.cr) = (reference.cb, reference.cr);
        making.chroma_stride = reference.chroma_stride;
    }
}

/// A call with nothing wrong but its matrix. Its planes are longer than needed.
fn sound<'a>(form: Form, planes: &'a Planes, weights: &'a [u8], random: &mut Random) -> Call<'a> {
    let (width, height) = (random.size(1, 40), random.size(1, 40));
    let source = Source { samples: planes.whole(0), width, height };
    let (column, row) = (random.size(0, (width - 1) / 16), random.size(0, (height - 1) / 16));
    let (width, height) = (random.size(1, 40), random.size(1, 40));
    let stride = width + random.size(0, 5);
    let reference = Reference { samples: planes.whole(1), width, height, stride };
    let making = Making {
        cb: planes.whole(0),
        cr: planes.whole(4),
        chroma_stride: width.div_ceil(2) + random.size(0, 5),
        rounding: random.size(0, 1) as u8,
    };
    let mode = random.size(0, 1) as u32;
    // In half mode any number of bits will do.
    let bits_per_pixel = if mode == 1 { random.int(1, 8) as u32 } else { bits(random) };
    let fcode = random.int(1, 7) as u32;
    let first_method = if weights.contains(&0) || random.chance(50) { 0 } else { random.byte() };
    let quantiser = random.int(1, 31) as u32;
    let scan = random.size(0, 2) as u32;
    let coding = Coding {
        search: Search { source, column, row, reference, mode, bits_per_pixel, fcode },
        vectors: random.pick(&[1, 4]),
        cb: planes.whole(2),
        cr: planes.whole(3),
        prediction: Prediction {
            y: planes.part(0, 256, random),
            cb: planes.part(0, 64, random),
            cr: planes.part(0, 64, random),
        },
        quantising: Quantising { quantiser, first_method, weights, scan },
    };
    Call::new(coding, (form == Form::Made).then_some(making))
}
