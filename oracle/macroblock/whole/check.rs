//! One call on both sides. The reply, every field of the record, all three areas and the guards
//! around each are compared; the error is the text of the first difference, with the whole input.

use super::call::{Answer, Call};
use crate::ask::{Areas, Record};
use crate::guard::{held, Lent};
use crate::macroblock::lent::{named, EventsLent};
use crate::random::Random;

/// What is lent for the record, but for the counts.
struct RecordLent {
    vector: Lent<i32>,
    sum: Lent<u32>,
    four_vectors: Lent<i32>,
    four_sums: Lent<u32>,
    patterns: Lent<u8>,
}

impl RecordLent {
    fn new(random: &mut Random) -> Self {
        RecordLent {
            vector: Lent::new(2, random.byte()),
            sum: Lent::new(1, random.byte()),
            four_vectors: Lent::new(8, random.byte()),
            four_sums: Lent::new(4, random.byte()),
            patterns: Lent::new(2, random.byte()),
        }
    }

    fn record<'a>(&'a mut self, counts: &'a mut [u8]) -> Record<'a> {
        let long = "an area as long as its answer";
        Record {
            vector: self.vector.area().try_into().expect(long),
            sum: &mut self.sum.area()[0],
            four_vectors: self.four_vectors.area().try_into().expect(long),
            four_sums: self.four_sums.area().try_into().expect(long),
            patterns: self.patterns.area().try_into().expect(long),
            counts: counts.try_into().expect(long),
        }
    }

    fn held(&self, got: u8, reply: u8, wanted: &Answer) -> Result<(), String> {
        named("vector", held(&self.vector, got, reply, &wanted.vector))?;
        named("sum", held(&self.sum, got, reply, &[wanted.sum]))?;
        named("four_vectors", held(&self.four_vectors, got, reply, &wanted.four_vectors))?;
        named("four_sums", held(&self.four_sums, got, reply, &wanted.four_sums))?;
        named("patterns", held(&self.patterns, got, reply, &wanted.patterns))
    }
}

/// Holds the library to `reply`: 0 with the originals' answer, which is handed back, or a refusal
/// with nothing written.
pub fn check(call: &Call, reply: u8, random: &mut Random) -> Result<Answer, String> {
    check_by(|areas, record| call.ask_library(areas, record), call, reply, random)
}

/// The same of any entry that is to answer as this one does.
pub fn check_by(
    ask: impl FnOnce(Areas, Record) -> u8,
    call: &Call,
    reply: u8,
    random: &mut Random,
) -> Result<Answer, String> {
    let mut record = RecordLent::new(random);
    let mut events = EventsLent::new(call.lens, 6, random);
    let (areas, counts) = events.areas();
    let got = ask(areas, record.record(counts));
    let wanted = if reply == 0 { call.ask_original() } else { Answer::default() };
    let found = record.held(got, reply, &wanted);
    let Err(found) = found.and_then(|()| events.held(got, reply, &wanted.events)) else {
        return Ok(wanted);
    };
    Err(format!("MISMATCH: {found}\n{call}the originals: {wanted:?}"))
}
