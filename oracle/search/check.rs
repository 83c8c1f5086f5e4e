//! One call on both sides. The reply, every vector and sum and the guards around them are compared;
//! the error is the text of the first difference, with the whole input.

use super::call::{Answer, Call};
use crate::guard::{held, Lent};
use crate::macroblock::lent::lines;

/// Holds the library to `reply`: 0 with the original's answer, which is handed back, or a refusal
/// with nothing written.
pub fn check(call: &Call, reply: u8, salt: u8) -> Result<Answer, String> {
    let mut vectors = Lent::<i32>::new(call.vectors_len, salt);
    let mut sums = Lent::<u32>::new(call.sums_len, !salt);
    let got = call.ask_library(vectors.area(), sums.area());
    let wanted = if reply == 0 { call.ask_original() } else { Answer::default() };
    let found = held(&vectors, got, reply, &wanted.vectors)
        .map_err(|text| format!("vectors: {text}"))
        .and_then(|()| held(&sums, got, reply, &wanted.sums).map_err(|t| format!("sums: {t}")));
    let Err(found) = found else {
        return Ok(wanted);
    };
    let mut text = format!("MISMATCH: {found}\n{call}");
    if reply == 0 && got == 0 {
        text += &format!("the original: {:?} {:?}\n", wanted.vectors, wanted.sums);
        text += &format!("the library: {:?} {:?}\n", vectors.contents(), sums.contents());
        let (source, reference) = (&call.search.source, &call.search.reference);
        text += &lines("source", source.samples, source.width);
        text += &lines("reference", reference.samples, reference.stride);
    }
    Err(text)
}
