//! A source's blocks, and the searches.

use crate::calls::{lent, Calls};
use crate::samples::{mode, vector, vectors_of, Plane};
use hencouch::{raw, Estimated, EstimatedFour, Mode, MotionVector, Place, Search, Source};

/// The arguments of a picture of which one plane is told, and a macroblock.
struct Luma {
    samples: Vec<u8>,
    width: usize,
    height: usize,
    place: Place,
}

impl Luma {
    fn read(c: &mut Calls) -> Luma {
        let (samples, width, height) = (c.area(), c.number(), c.number());
        Luma { samples, width, height, place: place(c) }
    }

    fn source(&self) -> Source<'_> {
        Source::luma(&self.samples, self.width, self.height)
    }
}

pub fn place(c: &mut Calls) -> Place {
    Place { column: c.number(), row: c.number() }
}

pub fn source_luma_block(c: &mut Calls) {
    let s = Luma::read(c);
    let length = c.length();
    let wanted = c.after(length);
    let Place { column, row } = s.place;
    let mut out = lent(length);
    c.replied(raw::source_luma_block(&s.samples, s.width, s.height, column, row, &mut out));
    c.same("out", &out, &wanted);
    let mut out = lent(length);
    c.answered(hencouch::source_luma_block(&s.source(), s.place, &mut out), ());
    c.same("out", &out, &wanted);
}

pub fn source_chroma_block(c: &mut Calls) {
    let s = Luma::read(c);
    let length = c.length();
    let wanted = c.after(length);
    let Luma { samples, width, height, place } = s;
    let mut out = lent(length);
    c.replied(raw::source_chroma_block(&samples, width, height, place.column, place.row, &mut out));
    c.same("out", &out, &wanted);
    let mut out = lent(length);
    c.answered(hencouch::source_chroma_block(&samples, width, height, place, &mut out), ());
    c.same("out", &out, &wanted);
}

/// What both searches are told first.
struct Told {
    source: Luma,
    plane: Plane,
    mode: Mode,
    fcode: u32,
}

impl Told {
    fn read(c: &mut Calls) -> Told {
        let (source, plane, mode) = (Luma::read(c), Plane::read(c), mode(c));
        Told { source, plane, mode, fcode: c.number() }
    }

    fn search(&self) -> Search<'_> {
        Search {
            source: self.source.source(),
            place: self.source.place,
            reference: self.plane.reference(),
            mode: self.mode,
            fcode: self.fcode,
        }
    }
}

pub fn estimate_motion(c: &mut Calls) {
    let told = Told::read(c);
    let (vector_len, sum_len) = (c.length(), c.length());
    let (wanted_vector, wanted_sum) = (c.after::<i32>(vector_len), c.after::<u32>(sum_len));
    let Told { source: s, plane: p, mode: m, fcode } = &told;
    let (mut vector, mut sum) = (lent(vector_len), lent(sum_len));
    c.replied(raw::estimate_motion(
        &s.samples, s.width, s.height, s.place.column, s.place.row, &p.samples, p.width, p.height,
        p.stride, m.mode, m.bits_per_pixel, *fcode, &mut vector, &mut sum,
    ));
    c.same("vector", &vector, &wanted_vector);
    c.same("sum", &sum, &wanted_sum);
    // A vector and a sum of another length are none that the safe function could be lent.
    if let ([x, y], [sum]) = (&wanted_vector[..], &wanted_sum[..]) {
        let wanted = Estimated { vector: MotionVector { x: *x, y: *y }, sum: *sum };
        c.answered(hencouch::estimate_motion(&told.search()), wanted);
    }
}

pub fn estimate_motion_4mv(c: &mut Calls) {
    let told = Told::read(c);
    let seed = vector(c);
    let (vectors_len, sums_len) = (c.length(), c.length());
    let (wanted_vectors, wanted_sums) = (c.after::<i32>(vectors_len), c.after::<u32>(sums_len));
    let Told { source: s, plane: p, mode: m, fcode } = &told;
    let (mut vectors, mut sums) = (lent(vectors_len), lent(sums_len));
    c.replied(raw::estimate_motion_4mv(
        &s.samples, s.width, s.height, s.place.column, s.place.row, &p.samples, p.width, p.height,
        p.stride, m.mode, m.bits_per_pixel, *fcode, seed.x, seed.y, &mut vectors, &mut sums,
    ));
    c.same("vectors", &vectors, &wanted_vectors);
    c.same("sums", &sums, &wanted_sums);
    // Vectors and sums of another length are none that the safe function could be lent.
    if let (Ok(parts), Ok(sums)) = (wanted_vectors.try_into(), wanted_sums.try_into()) {
        let wanted = EstimatedFour { vectors: vectors_of(parts), sums };
        c.answered(hencouch::estimate_motion_4mv(&told.search(), seed), wanted);
    }
}
