//! The refusals of the entries that search and code, written from the list and independent of the
//! library: every reason that a call gives is worked out, and the reply is the first of them.

use super::call::{Call, Form};
use crate::ask::Coding;
use crate::damage::{bad_geometry, last_sample, planes};
use crate::macroblock::residual::{bad_lengths, source_reasons};

/// The numbers that can occur, in the order in which they are looked at.
pub fn numbers(form: Form) -> &'static [u8] {
    match form {
        Form::Lent => &[1, 2, 3, 4, 5, 6, 7, 8, 10, 11, 12, 14],
        Form::Made => &[1, 2, 3, 4, 5, 6, 7, 8, 10, 11, 12, 14, 31],
    }
}

/// All reasons to turn this call back, in order. The reply is the first, or 0 if there is none.
pub fn reasons(call: &Call) -> Vec<u8> {
    let Coding { search: s, vectors, quantising: q, prediction, .. } = &call.coding;
    let lent = call.making.is_none() && bad_lengths(prediction);
    let [size, bytes] = match call.reference() {
        Some(reference) => planes::reasons(&reference),
        None => {
            let short = s.reference.samples.len() as u128 <= last_sample(&s.reference);
            [(4, bad_geometry(&s.reference)), (5, short)]
        }
    };
    let [sides, samples, place] = source_reasons(&call.coding.macroblock());
    let all = [
        (1, !(1..=7).contains(&s.fcode)),
        (2, s.mode > 1),
        (3, s.mode == 1 && !(1..=8).contains(&s.bits_per_pixel)),
        size,
        bytes,
        sides,
        samples,
        place,
        (10, !(1..=31).contains(&q.quantiser)),
        (11, q.first_method != 0 && q.weights.contains(&0)),
        (12, lent || q.weights.len() != 64 || call.lens != [384; 3]),
        (14, ![1, 4].contains(vectors) || q.scan > 2),
        (31, call.making.is_some_and(|making| making.rounding > 1)),
    ];
    all.iter().filter(|reason| reason.1).map(|reason| reason.0).collect()
}
