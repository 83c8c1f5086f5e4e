//! The transform, levels, scans and events.

use crate::calls::{lent, Calls, Number};
use hencouch::{raw, Areas, Refusal};

pub fn forward_dct_8x8(c: &mut Calls) {
    let residual: Vec<i32> = c.area();
    let length = c.length();
    let wanted = c.after(length);
    let mut out = lent(length);
    c.replied(raw::forward_dct_8x8(&residual, &mut out));
    c.same("out", &out, &wanted);
    let mut out = lent(length);
    c.answered(hencouch::forward_dct_8x8(&residual, &mut out), ());
    c.same("out", &out, &wanted);
}

pub fn quantise_block(c: &mut Calls) {
    let coefficients: Vec<i32> = c.area();
    let (quantiser, method): (u32, u8) = (c.number(), c.number());
    let weights: Vec<u8> = c.area();
    let length = c.length();
    let wanted = c.after(length);
    let mut out = lent(length);
    c.replied(raw::quantise_block(&coefficients, quantiser, method, &weights, &mut out));
    c.same("out", &out, &wanted);
    let mut out = lent(length);
    let first = method != 0;
    c.answered(hencouch::quantise_block(&coefficients, quantiser, first, &weights, &mut out), ());
    c.same("out", &out, &wanted);
}

pub fn inverse_block(c: &mut Calls) {
    by_number(c, raw::inverse_block, hencouch::inverse_block);
}

pub fn forward_scan(c: &mut Calls) {
    by_number(c, raw::forward_scan, hencouch::forward_scan);
}

pub fn inverse_scan(c: &mut Calls) {
    by_number(c, raw::inverse_scan, hencouch::inverse_scan);
}

/// Levels, a quantiser or a scan, and an area.
fn by_number(
    c: &mut Calls,
    entry: impl Fn(&[i32], u32, &mut [i32]) -> u8,
    safe: impl Fn(&[i32], u32, &mut [i32]) -> Result<(), Refusal>,
) {
    let levels: Vec<i32> = c.area();
    let number = c.number();
    let length = c.length();
    let wanted = c.after(length);
    let mut out = lent(length);
    c.replied(entry(&levels, number, &mut out));
    c.same("out", &out, &wanted);
    let mut out = lent(length);
    c.answered(safe(&levels, number, &mut out), ());
    c.same("out", &out, &wanted);
}

/// Three areas for events.
#[derive(Debug, PartialEq)]
pub struct EventsLent {
    pub lasts: Vec<u8>,
    pub runs: Vec<u8>,
    pub levels: Vec<i32>,
}

impl EventsLent {
    /// Areas of these lengths, before the call.
    pub fn new([lasts, runs, levels]: [usize; 3]) -> Self {
        EventsLent { lasts: lent(lasts), runs: lent(runs), levels: lent(levels) }
    }

    pub fn areas(&mut self) -> Areas<'_> {
        Areas { lasts: &mut self.lasts, runs: &mut self.runs, levels: &mut self.levels }
    }

    pub fn after(c: &mut Calls, [lasts, runs, levels]: [usize; 3]) -> Self {
        EventsLent { lasts: c.after(lasts), runs: c.after(runs), levels: c.after(levels) }
    }
}

pub fn levels_to_events(c: &mut Calls) {
    let levels: Vec<i32> = c.area();
    let lengths = [c.length(), c.length(), c.length()];
    let wanted = EventsLent::after(c, lengths);
    let [wanted_count] = c.array_after([u8::BEFORE]);
    let (mut e, mut count) = (EventsLent::new(lengths), u8::BEFORE);
    c.replied(raw::levels_to_events(&levels, &mut e.lasts, &mut e.runs, &mut e.levels, &mut count));
    c.same("count", &count, &wanted_count);
    c.same("events", &e, &wanted);
    let mut e = EventsLent::new(lengths);
    c.answered(hencouch::levels_to_events(&levels, e.areas()), wanted_count);
    c.same("events", &e, &wanted);
}

pub fn inter_scan(c: &mut Calls) {
    let (interlaced, alternate): (u8, u8) = (c.number(), c.number());
    let [wanted] = c.array_after([u32::BEFORE]);
    let mut scan = u32::BEFORE;
    c.replied(raw::inter_scan(interlaced, alternate, &mut scan));
    c.same("scan", &scan, &wanted);
    c.answered(Ok(hencouch::inter_scan(interlaced != 0, alternate != 0)), wanted);
}
