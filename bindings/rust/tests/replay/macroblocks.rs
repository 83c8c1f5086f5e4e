//! A macroblock's activity, residual and events, and the entry that searches and codes.

use crate::calls::{lent, Calls, Number};
use crate::levels::EventsLent;
use crate::samples::{vectors_of, Plane};
use crate::searches::place;
use hencouch::{raw, Mode, MotionVector, Patterns, Place, Prediction, Quantising, Record};
use hencouch::{Settings, Source};

pub fn intra_activity(c: &mut Calls) {
    let (y, width, height): (Vec<u8>, usize, usize) = (c.area(), c.number(), c.number());
    let place = place(c);
    let [wanted] = c.array_after([u32::BEFORE]);
    let mut activity = u32::BEFORE;
    let Place { column, row } = place;
    c.replied(raw::intra_activity(&y, width, height, column, row, &mut activity));
    c.same("activity", &activity, &wanted);
    c.answered(hencouch::intra_activity(&Source::luma(&y, width, height), place), wanted);
}

/// Three planes, of a picture or of a prediction.
pub struct Planes {
    pub y: Vec<u8>,
    pub cb: Vec<u8>,
    pub cr: Vec<u8>,
}

impl Planes {
    pub fn read(c: &mut Calls) -> Planes {
        Planes { y: c.area(), cb: c.area(), cr: c.area() }
    }

    pub fn source(&self, width: usize, height: usize) -> Source<'_> {
        Source { y: &self.y, cb: &self.cb, cr: &self.cr, width, height }
    }

    fn prediction(&self) -> Prediction<'_> {
        Prediction { y: &self.y, cb: &self.cb, cr: &self.cr }
    }
}

pub fn macroblock_residual(c: &mut Calls) {
    let s = Planes::read(c);
    let (width, height, place) = (c.number(), c.number(), place(c));
    let p = Planes::read(c);
    let length = c.length();
    let wanted = c.after::<i32>(length);
    let mut out = lent(length);
    let Place { column, row } = place;
    c.replied(raw::macroblock_residual(
        &s.y, &s.cb, &s.cr, width, height, column, row, &p.y, &p.cb, &p.cr, &mut out,
    ));
    c.same("out", &out, &wanted);
    let mut out = lent(length);
    let (source, prediction) = (s.source(width, height), p.prediction());
    c.answered(hencouch::macroblock_residual(&source, place, &prediction, &mut out), ());
    c.same("out", &out, &wanted);
}

/// What both entries that quantise a residual are told.
struct Residual {
    residual: Vec<i32>,
    quantiser: u32,
    first_method: u8,
    weights: Vec<u8>,
    scan: u32,
    lengths: [usize; 3],
}

impl Residual {
    fn read(c: &mut Calls) -> Residual {
        Residual {
            residual: c.area(),
            quantiser: c.number(),
            first_method: c.number(),
            weights: c.area(),
            scan: c.number(),
            lengths: [c.length(), c.length(), c.length()],
        }
    }

    fn quantising(&self) -> Quantising<'_> {
        Quantising {
            quantiser: self.quantiser,
            first_method: self.first_method != 0,
            weights: &self.weights,
            scan: self.scan,
        }
    }
}

pub fn quantise_inter_block(c: &mut Calls) {
    let r = Residual::read(c);
    let wanted = EventsLent::after(c, r.lengths);
    let [wanted_count] = c.array_after([u8::BEFORE]);
    let (mut e, mut count) = (EventsLent::new(r.lengths), u8::BEFORE);
    c.replied(raw::quantise_inter_block(
        &r.residual, r.quantiser, r.first_method, &r.weights, r.scan, &mut e.lasts, &mut e.runs,
        &mut e.levels, &mut count,
    ));
    c.same("count", &count, &wanted_count);
    c.same("events", &e, &wanted);
    let mut e = EventsLent::new(r.lengths);
    let got = hencouch::quantise_inter_block(&r.residual, &r.quantising(), e.areas());
    c.answered(got, wanted_count);
    c.same("events", &e, &wanted);
}

pub fn quantise_inter_residual(c: &mut Calls) {
    let r = Residual::read(c);
    let wanted = EventsLent::after(c, r.lengths);
    let wanted_counts = c.array_after([u8::BEFORE; 6]);
    let (mut e, mut counts) = (EventsLent::new(r.lengths), [u8::BEFORE; 6]);
    c.replied(raw::quantise_inter_residual(
        &r.residual, r.quantiser, r.first_method, &r.weights, r.scan, &mut e.lasts, &mut e.runs,
        &mut e.levels, &mut counts,
    ));
    c.same("counts", &counts, &wanted_counts);
    c.same("events", &e, &wanted);
    let mut e = EventsLent::new(r.lengths);
    let got = hencouch::quantise_inter_residual(&r.residual, &r.quantising(), e.areas());
    c.answered(got, wanted_counts);
    c.same("events", &e, &wanted);
}

pub fn inter_cbp(c: &mut Calls) {
    let counts = c.array();
    let wanted = c.array_after([u8::BEFORE; 2]);
    let mut patterns = [u8::BEFORE; 2];
    c.replied(raw::inter_cbp(&counts, &mut patterns));
    c.same("patterns", &patterns, &wanted);
    let [luma, chroma] = wanted;
    c.answered(Ok(hencouch::inter_cbp(counts)), Patterns { luma, chroma });
}

/// What the entries that search and code against a lent prediction are told; a step has no place.
pub struct Coding {
    pub numbers: Numbers,
    pub plane: Plane,
    pub source: Planes,
    pub width: usize,
    pub height: usize,
    pub place: Option<Place>,
    pub weights: Vec<u8>,
    pub prediction: Planes,
    pub lengths: [usize; 3],
}

/// The settings.
pub struct Numbers {
    pub fcode: u32,
    pub mode: u32,
    pub bits_per_pixel: u32,
    pub quantiser: u32,
    pub first_method: u8,
    pub vectors: u32,
    pub scan: u32,
}

impl Numbers {
    pub fn read(c: &mut Calls) -> Numbers {
        Numbers {
            fcode: c.number(),
            mode: c.number(),
            bits_per_pixel: c.number(),
            quantiser: c.number(),
            first_method: c.number(),
            vectors: c.number(),
            scan: c.number(),
        }
    }

    pub fn settings<'a>(&self, weights: &'a [u8]) -> Settings<'a> {
        let Numbers { fcode, mode, bits_per_pixel, quantiser, first_method, vectors, scan } = *self;
        let first_method = first_method != 0;
        let quantising = Quantising { quantiser, first_method, weights, scan };
        Settings { fcode, mode: Mode { mode, bits_per_pixel }, vectors, quantising }
    }
}

impl Coding {
    pub fn read(c: &mut Calls, with_place: bool) -> Coding {
        Coding {
            numbers: Numbers::read(c),
            plane: Plane::read(c),
            source: Planes::read(c),
            width: c.number(),
            height: c.number(),
            place: with_place.then(|| place(c)),
            weights: c.area(),
            prediction: Planes::read(c),
            lengths: [c.length(), c.length(), c.length()],
        }
    }

    pub fn settings(&self) -> Settings<'_> {
        self.numbers.settings(&self.weights)
    }

    pub fn source(&self) -> Source<'_> {
        self.source.source(self.width, self.height)
    }

    pub fn prediction(&self) -> Prediction<'_> {
        self.prediction.prediction()
    }
}

/// The areas of a record.
#[derive(Debug, PartialEq)]
pub struct RecordLent {
    pub vector: [i32; 2],
    pub sum: u32,
    pub four_vectors: [i32; 8],
    pub four_sums: [u32; 4],
    pub patterns: [u8; 2],
    pub counts: [u8; 6],
}

impl RecordLent {
    /// Before the call.
    pub fn new() -> Self {
        RecordLent {
            vector: [i32::BEFORE; 2],
            sum: u32::BEFORE,
            four_vectors: [i32::BEFORE; 8],
            four_sums: [u32::BEFORE; 4],
            patterns: [u8::BEFORE; 2],
            counts: [u8::BEFORE; 6],
        }
    }

    pub fn after(c: &mut Calls) -> Self {
        RecordLent {
            vector: c.array_after([i32::BEFORE; 2]),
            sum: c.array_after([u32::BEFORE])[0],
            four_vectors: c.array_after([i32::BEFORE; 8]),
            four_sums: c.array_after([u32::BEFORE; 4]),
            patterns: c.array_after([u8::BEFORE; 2]),
            counts: c.array_after([u8::BEFORE; 6]),
        }
    }

    pub fn record(&self) -> Record {
        let ([x, y], [luma, chroma]) = (self.vector, self.patterns);
        Record {
            vector: MotionVector { x, y },
            sum: self.sum,
            vectors: vectors_of(self.four_vectors),
            sums: self.four_sums,
            patterns: Patterns { luma, chroma },
            counts: self.counts,
        }
    }
}

pub fn code_macroblock(c: &mut Calls) {
    let told = Coding::read(c, true);
    let (wanted, wanted_record) = (EventsLent::after(c, told.lengths), RecordLent::after(c));
    let Coding { numbers: n, plane: r, source: s, prediction: p, .. } = &told;
    let place = told.place.expect("a place was read");
    let (mut e, mut record) = (EventsLent::new(told.lengths), RecordLent::new());
    c.replied(raw::code_macroblock(
        n.fcode, n.mode, n.bits_per_pixel, n.quantiser, n.first_method, n.vectors, n.scan,
        &r.samples, r.width, r.height, r.stride, &s.y, &s.cb, &s.cr, told.width, told.height,
        place.column, place.row, &told.weights, &p.y, &p.cb, &p.cr, &mut e.lasts, &mut e.runs,
        &mut e.levels, &mut record.vector, &mut record.sum, &mut record.four_vectors,
        &mut record.four_sums, &mut record.patterns, &mut record.counts,
    ));
    c.same("record", &record, &wanted_record);
    c.same("events", &e, &wanted);
    let mut e = EventsLent::new(told.lengths);
    let (settings, plane, source) = (told.settings(), r.reference(), told.source());
    let prediction = told.prediction();
    let got = hencouch::code_macroblock(&settings, &plane, &source, place, &prediction, e.areas());
    c.answered(got, wanted_record.record());
    c.same("events", &e, &wanted);
}
