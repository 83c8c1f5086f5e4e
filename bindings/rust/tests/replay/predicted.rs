//! The prediction made here: chroma vectors, a macroblock's three planes, and the entries that search,
//! predict and code.

use crate::calls::{lent, Calls, Number};
use crate::levels::EventsLent;
use crate::macroblocks::{Numbers, Planes, RecordLent};
use crate::runs::run_of;
use crate::samples::{mode, vector, vectors_of};
use crate::searches::place;
use hencouch::{raw, Mode, MotionVector, Place, PredictionAreas, Reference, ReferencePlanes};
use hencouch::{Refusal, Settings, Source};

/// Bits per pixel are not among what a chroma vector is told.
fn mode_alone(c: &mut Calls) -> Mode {
    Mode { mode: c.number(), bits_per_pixel: 0 }
}

/// Holds both answers to the stored vector.
fn chroma(
    c: &mut Calls,
    entry: impl Fn(&mut [i32; 2]) -> u8,
    safe: impl Fn() -> Result<MotionVector, Refusal>,
) {
    let wanted = c.array_after([i32::BEFORE; 2]);
    let mut chroma = [i32::BEFORE; 2];
    c.replied(entry(&mut chroma));
    c.same("vector", &chroma, &wanted);
    let [x, y] = wanted;
    c.answered(safe(), MotionVector { x, y });
}

pub fn chroma_vector(c: &mut Calls) {
    let (m, v) = (mode_alone(c), vector(c));
    let entry = |chroma: &mut [i32; 2]| raw::chroma_vector(m.mode, v.x, v.y, chroma);
    chroma(c, entry, || hencouch::chroma_vector(m, v));
}

pub fn chroma_vector_4mv(c: &mut Calls) {
    let m = mode_alone(c);
    let parts: [i32; 8] = c.array();
    let entry = |chroma: &mut [i32; 2]| raw::chroma_vector_4mv(m.mode, &parts, chroma);
    chroma(c, entry, || hencouch::chroma_vector_4mv(m, &vectors_of(parts)));
}

/// The arguments of a reference of three planes.
struct Three {
    planes: Planes,
    width: usize,
    height: usize,
    stride: usize,
    chroma_stride: usize,
}

impl Three {
    fn read(c: &mut Calls) -> Three {
        Three {
            planes: Planes::read(c),
            width: c.number(),
            height: c.number(),
            stride: c.number(),
            chroma_stride: c.number(),
        }
    }

    fn reference(&self) -> ReferencePlanes<'_> {
        let Three { planes: Planes { y, cb, cr }, width, height, stride, chroma_stride } = self;
        let luma = Reference { samples: y, width: *width, height: *height, stride: *stride };
        ReferencePlanes { luma, cb, cr, chroma_stride: *chroma_stride }
    }
}

/// A macroblock's place, the rounding type, and three areas for its samples.
struct Out {
    place: Place,
    rounding: u8,
    lengths: [usize; 3],
    wanted: [Vec<u8>; 3],
}

impl Out {
    fn read(c: &mut Calls) -> Out {
        let (place, rounding) = (place(c), c.number());
        let lengths = [c.length(), c.length(), c.length()];
        Out { place, rounding, lengths, wanted: lengths.map(|length| c.after(length)) }
    }

    fn raw(&self, c: &Calls, entry: impl Fn(&mut [u8], &mut [u8], &mut [u8]) -> u8) {
        let mut areas = self.lengths.map(lent);
        let [y, cb, cr] = &mut areas;
        c.replied(entry(y, cb, cr));
        c.same("samples", &areas, &self.wanted);
    }

    fn safe(&self, c: &Calls, safe: impl Fn(PredictionAreas) -> Result<(), Refusal>) {
        let mut areas = self.lengths.map(lent);
        let [y, cb, cr] = &mut areas;
        c.answered(safe(PredictionAreas { y, cb, cr }), ());
        c.same("samples", &areas, &self.wanted);
    }
}

pub fn predict_macroblock(c: &mut Calls) {
    let (r, m, v, o) = (Three::read(c), mode(c), vector(c), Out::read(c));
    let (p, Place { column, row }) = (&r.planes, o.place);
    o.raw(c, |y, cb, cr| {
        raw::predict_macroblock(
            &p.y, &p.cb, &p.cr, r.width, r.height, r.stride, r.chroma_stride, m.mode,
            m.bits_per_pixel, v.x, v.y, column, row, o.rounding, y, cb, cr,
        )
    });
    let reference = r.reference();
    o.safe(c, |out| hencouch::predict_macroblock(&reference, m, v, o.place, o.rounding, out));
}

pub fn predict_macroblock_4mv(c: &mut Calls) {
    let (r, m) = (Three::read(c), mode(c));
    let parts: [i32; 8] = c.array();
    let o = Out::read(c);
    let (p, Place { column, row }) = (&r.planes, o.place);
    o.raw(c, |y, cb, cr| {
        raw::predict_macroblock_4mv(
            &p.y, &p.cb, &p.cr, r.width, r.height, r.stride, r.chroma_stride, m.mode,
            m.bits_per_pixel, &parts, column, row, o.rounding, y, cb, cr,
        )
    });
    let (reference, vectors) = (r.reference(), vectors_of(parts));
    o.safe(c, |out| {
        hencouch::predict_macroblock_4mv(&reference, m, &vectors, o.place, o.rounding, out)
    });
}

/// What the entries that search, predict and code are told; a step has no place.
struct Predicting {
    numbers: Numbers,
    rounding: u8,
    reference: Three,
    source: Planes,
    width: usize,
    height: usize,
    place: Option<Place>,
    weights: Vec<u8>,
    lengths: [usize; 3],
}

impl Predicting {
    fn read(c: &mut Calls, with_place: bool) -> Predicting {
        Predicting {
            numbers: Numbers::read(c),
            rounding: c.number(),
            reference: Three::read(c),
            source: Planes::read(c),
            width: c.number(),
            height: c.number(),
            place: with_place.then(|| place(c)),
            weights: c.area(),
            lengths: [c.length(), c.length(), c.length()],
        }
    }

    fn safe(&self) -> (Settings<'_>, ReferencePlanes<'_>, Source<'_>) {
        let source = self.source.source(self.width, self.height);
        (self.numbers.settings(&self.weights), self.reference.reference(), source)
    }
}

pub fn code_predicted_macroblock(c: &mut Calls) {
    let told = Predicting::read(c, true);
    let (wanted, wanted_record) = (EventsLent::after(c, told.lengths), RecordLent::after(c));
    let Predicting { numbers: n, reference: r, source: s, rounding, .. } = &told;
    let (p, place) = (&r.planes, told.place.expect("a place was read"));
    let (mut e, mut record) = (EventsLent::new(told.lengths), RecordLent::new());
    c.replied(raw::code_predicted_macroblock(
        n.fcode, n.mode, n.bits_per_pixel, n.quantiser, n.first_method, n.vectors, n.scan,
        *rounding, &p.y, &p.cb, &p.cr, r.width, r.height, r.stride, r.chroma_stride, &s.y, &s.cb,
        &s.cr, told.width, told.height, place.column, place.row, &told.weights, &mut e.lasts,
        &mut e.runs, &mut e.levels, &mut record.vector, &mut record.sum, &mut record.four_vectors,
        &mut record.four_sums, &mut record.patterns, &mut record.counts,
    ));
    c.same("record", &record, &wanted_record);
    c.same("events", &e, &wanted);
    let mut e = EventsLent::new(told.lengths);
    let (settings, planes, source) = told.safe();
    let got = hencouch::code_predicted_macroblock(
        &settings,
        &planes,
        *rounding,
        &source,
        place,
        e.areas(),
    );
    c.answered(got, wanted_record.record());
    c.same("events", &e, &wanted);
}

pub fn step_predicted(c: &mut Calls) {
    let before = c.array();
    assert_eq!(c.length(), before.len());
    let told = Predicting::read(c, false);
    let wanted_run = c.array_after(before);
    let (wanted, wanted_record) = (EventsLent::after(c, told.lengths), RecordLent::after(c));
    let Predicting { numbers: n, reference: r, source: s, rounding, .. } = &told;
    let (mut e, mut record) = (EventsLent::new(told.lengths), RecordLent::new());
    let (p, mut run) = (&r.planes, before);
    c.replied(raw::step_predicted(
        &mut run, n.fcode, n.mode, n.bits_per_pixel, n.quantiser, n.first_method, n.vectors,
        n.scan, *rounding, &p.y, &p.cb, &p.cr, r.width, r.height, r.stride, r.chroma_stride, &s.y,
        &s.cb, &s.cr, told.width, told.height, &told.weights, &mut e.lasts, &mut e.runs,
        &mut e.levels, &mut record.vector, &mut record.sum, &mut record.four_vectors,
        &mut record.four_sums, &mut record.patterns, &mut record.counts,
    ));
    c.same("run", &run, &wanted_run);
    c.same("record", &record, &wanted_record);
    c.same("events", &e, &wanted);
    let (mut e, mut run) = (EventsLent::new(told.lengths), run_of(before));
    let (settings, planes, source) = told.safe();
    let got = run.step_predicted(&settings, &planes, *rounding, &source, e.areas());
    c.answered(got, wanted_record.record());
    c.same("run", &run, &run_of(wanted_run));
    c.same("events", &e, &wanted);
}
