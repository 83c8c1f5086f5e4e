//! A picture's run.

use crate::calls::{Calls, Number};
use crate::levels::EventsLent;
use crate::macroblocks::{Coding, RecordLent};
use hencouch::{raw, Place, Run, Totals};

pub fn run_of([width, height, macroblocks, events, sums]: [u64; 5]) -> Run {
    Run { width, height, macroblocks, events, sums }
}

pub fn open(c: &mut Calls) {
    let (width, height) = (c.number(), c.number());
    let wanted = c.array_after([u64::BEFORE; 5]);
    let mut run = [u64::BEFORE; 5];
    c.replied(raw::open(width, height, &mut run));
    c.same("run", &run, &wanted);
    c.answered(Run::open(width, height), run_of(wanted));
}

pub fn next_place(c: &mut Calls) {
    let run = c.array();
    let wanted = c.array_after([u64::BEFORE; 2]);
    let mut place = [u64::BEFORE; 2];
    c.replied(raw::next_place(&run, &mut place));
    c.same("place", &place, &wanted);
    let [column, row] = wanted.map(|number| number as usize);
    c.answered(Ok(run_of(run).next_place()), Place { column, row });
}

pub fn step(c: &mut Calls) {
    let before = c.array();
    assert_eq!(c.length(), before.len());
    let told = Coding::read(c, false);
    let wanted_run = c.array_after(before);
    let (wanted, wanted_record) = (EventsLent::after(c, told.lengths), RecordLent::after(c));
    let Coding { numbers: n, plane: r, source: s, prediction: p, .. } = &told;
    let (mut e, mut record) = (EventsLent::new(told.lengths), RecordLent::new());
    let mut run = before;
    c.replied(raw::step(
        &mut run, n.fcode, n.mode, n.bits_per_pixel, n.quantiser, n.first_method, n.vectors,
        n.scan, &r.samples, r.width, r.height, r.stride, &s.y, &s.cb, &s.cr, told.width,
        told.height, &told.weights, &p.y, &p.cb, &p.cr, &mut e.lasts, &mut e.runs, &mut e.levels,
        &mut record.vector, &mut record.sum, &mut record.four_vectors, &mut record.four_sums,
        &mut record.patterns, &mut record.counts,
    ));
    c.same("run", &run, &wanted_run);
    c.same("record", &record, &wanted_record);
    c.same("events", &e, &wanted);
    let (mut e, mut run) = (EventsLent::new(told.lengths), run_of(before));
    let (settings, plane, source) = (told.settings(), r.reference(), told.source());
    let got = run.step(&settings, &plane, &source, &told.prediction(), e.areas());
    c.answered(got, wanted_record.record());
    c.same("run", &run, &run_of(wanted_run));
    c.same("events", &e, &wanted);
}

pub fn close(c: &mut Calls) {
    let run = c.array();
    let wanted = c.array_after([u64::BEFORE; 3]);
    let mut totals = [u64::BEFORE; 3];
    c.replied(raw::close(&run, &mut totals));
    c.same("totals", &totals, &wanted);
    let [macroblocks, events, sums] = wanted;
    c.answered(run_of(run).close(), Totals { macroblocks, events, sums });
}
