//! The two searches, timed on two pictures of 176 x 144: a texture that moved, and a comb of
//! walking bees, whose reference is the picture before. A time is for a macroblock: the best of
//! each of the 99, on average. Bits per pixel are 8; four vectors are seeded by the one vector of
//! the original.
//!
//! The library judges its arguments and reads the source in every call; the original's reference is
//! judged and its source blocks are laid out once, before the timing.

use crate::ask::{self, Reference, Search, Source};
use crate::motion::MotionVector;
use crate::pictures::{bees, noise, textured};
use crate::pvop_encode::Place;
use crate::table::{Over, Table};
use crate::timing::{measure_each, Times};
use crate::wanted::Wanted;
use std::hint::black_box;

pub const WIDTH: usize = 176;
pub const HEIGHT: usize = 144;
pub const COLUMNS: usize = WIDTH / 16;
pub const MACROBLOCKS: usize = COLUMNS * HEIGHT / 16;

const PASSES: usize = 12;

pub const MODES: [&str; 2] = ["half", "quarter"];

#[derive(Clone, Copy)]
enum Function {
    One,
    Four,
}

#[derive(Clone, Copy, PartialEq)]
pub enum Picture {
    Textured,
    Bees,
}

pub const PICTURES: [Picture; 2] = [Picture::Textured, Picture::Bees];

impl Picture {
    pub fn name(self) -> &'static str {
        match self {
            Picture::Textured => "textured",
            Picture::Bees => "bees",
        }
    }
}

struct Row {
    function: Function,
    /// 0 half, 1 quarter.
    mode: u32,
    picture: Picture,
    fcode: u32,
}

pub fn bench(wanted: &mut Wanted) {
    let pictures = PICTURES.map(pictures);
    let mut table = Table::new("search, a macroblock");
    let mut timed: Vec<(Function, Vec<Work>, Vec<Times>)> = Vec::new();
    for row in &mut rows() {
        let (name, group) = row.names();
        table.row(name, &[(&group, Over::Sums)]);
        let works = works(row, &pictures[row.picture as usize]);
        works.iter().for_each(|work| assert_same(row.function, work));
        timed.push((row.function, works, vec![Times::NONE; MACROBLOCKS]));
    }
    table.run(wanted, PASSES, |at, _| {
        let (function, works, best) = &mut timed[at];
        time(*function, works, best);
        Times::mean(best)
    });
}

fn rows() -> Vec<Row> {
    let mut rows = Vec::new();
    for function in [Function::One, Function::Four] {
        for mode in [0, 1] {
            for picture in PICTURES {
                rows.extend([1, 4].map(|fcode| Row { function, mode, picture, fcode }));
            }
        }
    }
    rows
}

impl Row {
    /// The row's and its group's.
    fn names(&self) -> (String, String) {
        let vectors = match self.function {
            Function::One => "one vector",
            Function::Four => "four vectors",
        };
        let group = format!("search {vectors} {}", MODES[self.mode as usize]);
        (format!("{group} {} fcode {}", self.picture.name(), self.fcode), group)
    }
}

fn draw(sample: impl Fn(i32, i32) -> u8) -> Vec<u8> {
    (0..WIDTH * HEIGHT).map(|k| sample((k % WIDTH) as i32, (k / WIDTH) as i32)).collect()
}

/// The source and the reference.
pub fn pictures(picture: Picture) -> (Vec<u8>, Vec<u8>) {
    match picture {
        Picture::Textured => {
            let grain = |x, y| noise(x, y, 9) % 3;
            (draw(|x, y| textured(x + 3, y - 2) + grain(x, y)), draw(textured))
        }
        Picture::Bees => (draw(|x, y| bees(x, y, 1)), draw(|x, y| bees(x, y, 0))),
    }
}

/// One macroblock as each side takes it.
struct Work<'a> {
    search: Search<'a>,
    place: Place<'a>,
    seed: MotionVector,
}

fn works<'a>(row: &Row, (source, reference): &'a (Vec<u8>, Vec<u8>)) -> Vec<Work<'a>> {
    let work = |k: usize| {
        let (width, height, stride) = (WIDTH, HEIGHT, WIDTH);
        let search = Search {
            source: Source { samples: source, width, height },
            column: k % COLUMNS,
            row: k / COLUMNS,
            reference: Reference { samples: reference, width, height, stride },
            mode: row.mode,
            bits_per_pixel: 8,
            fcode: row.fcode,
        };
        let place = Place::new(&search);
        let seed = place.one().0;
        Work { search, place, seed }
    };
    (0..MACROBLOCKS).map(work).collect()
}

fn time(function: Function, works: &[Work], best: &mut [Times]) {
    let mut area = Area::default();
    let rust = |call: usize| {
        let work = black_box(&works[call]);
        match function {
            Function::One => {
                black_box(work.place.one());
            }
            Function::Four => {
                black_box(work.place.four(work.seed));
            }
        }
    };
    let rattle = |call: usize| {
        let reply = ask_rattle(function, black_box(&works[call]), &mut area);
        black_box((reply, &area));
    };
    measure_each(rust, rattle, best)
}

#[derive(Default)]
struct Area {
    vectors: [i32; 8],
    sums: [u32; 4],
}

fn ask_rattle(function: Function, work: &Work, area: &mut Area) -> u8 {
    let Area { vectors, sums } = area;
    match function {
        Function::One => ask::estimate_motion(&work.search, &mut vectors[..2], &mut sums[..1]),
        Function::Four => {
            let seed = (work.seed.x, work.seed.y);
            ask::estimate_motion_4mv(&work.search, seed, vectors, sums)
        }
    }
}

/// Holds both sides to the same answers.
fn assert_same(function: Function, work: &Work) {
    let mut area = Area::default();
    let reply = ask_rattle(function, work, &mut area);
    let (vectors, total) = match function {
        Function::One => {
            let (vector, sum) = work.place.one();
            (vec![vector], sum)
        }
        Function::Four => {
            let (vectors, total) = work.place.four(work.seed);
            (vectors.to_vec(), total)
        }
    };
    let parts: Vec<i32> = vectors.iter().flat_map(|vector| [vector.x, vector.y]).collect();
    let got = (reply, &area.vectors[..parts.len()], area.sums[..vectors.len()].iter().sum());
    assert_eq!(got, (0, &parts[..], total), "the sides differ: see make compare");
}
