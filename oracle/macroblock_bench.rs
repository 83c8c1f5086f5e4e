//! The entry that searches and codes, timed on the pictures of the searches, and parts of it. The
//! other side is the same work by the originals: search, four vectors where wanted, residual,
//! events, pattern. A time is for a macroblock: the best of each of the 99, on average. Bits per
//! pixel are 8, the quantiser is 5, the scan zigzag. The lent prediction is the reference at the
//! one vector that the original finds, for luma by its interpolation, for chroma at whole samples.
//!
//! The library judges its arguments in every call; the original's reference is judged, and its
//! source block for the search and its prediction are laid out, once, before the timing.

pub mod parts;
pub mod predicted;

use crate::ask::{self, Areas, Coding, Making, Prediction, Quantising, Record};
use crate::ask::{Reference, Search, Source};
use crate::pvop_encode::{Coded, Coder, Place};
use crate::pvop_mv::{predict_luma_macroblock, PvopMbMotion};
use crate::search_bench::{
    pictures, Picture, COLUMNS, HEIGHT, MACROBLOCKS, MODES, PICTURES, WIDTH,
};
use crate::table::{Over, Table};
use crate::texture::AcEvent;
use crate::timing::{measure_each, Times};
use crate::wanted::Wanted;
use std::hint::black_box;

const PASSES: usize = 12;

const QUANTISER: u32 = 5;
const ZIGZAG: u32 = 2;

pub struct Row {
    /// 1 or 4.
    pub vectors: u32,
    /// 0 half, 1 quarter.
    pub mode: u32,
    pub picture: Picture,
    pub fcode: u32,
    pub first_method: bool,
}

pub fn bench(wanted: &mut Wanted) {
    let stills = PICTURES.map(Still::new);
    let weights = weights();
    let mut table = Table::new("search and coding, a macroblock");
    let rows = rows();
    let predictions: Vec<Vec<Predicted>> =
        rows.iter().map(|row| predictions(row, &stills[row.picture as usize])).collect();
    let mut timed: Vec<(Vec<Work>, Vec<Times>)> = Vec::new();
    for (row, predictions) in rows.iter().zip(&predictions) {
        let (name, group) = row.names();
        table.row(name, &[(&group, Over::Sums)]);
        let works = works(row, &stills[row.picture as usize], predictions, &weights);
        for work in &works {
            let mut area = Area::new();
            let reply = area.code(&work.coding);
            area.assert_same(reply, work.coder.code());
        }
        timed.push((works, vec![Times::NONE; MACROBLOCKS]));
    }
    table.run(wanted, PASSES, |at, _| {
        let (works, best) = &mut timed[at];
        time(works, best);
        Times::mean(best)
    });
}

fn weights() -> [u8; 64] {
    std::array::from_fn(|i| 16 + i as u8 / 4)
}

/// A row for each setting: the second method, and two rows of the first.
fn rows() -> Vec<Row> {
    let first_method = false;
    let mut rows = Vec::new();
    for vectors in [1, 4] {
        for mode in [0, 1] {
            for picture in PICTURES {
                rows.extend([1, 4].map(|fcode| Row {
                    vectors,
                    mode,
                    picture,
                    fcode,
                    first_method,
                }));
            }
        }
    }
    let (picture, fcode, first_method) = (Picture::Bees, 1, true);
    rows.extend([(1, 0), (4, 1)].map(|(vectors, mode)| Row {
        vectors,
        mode,
        picture,
        fcode,
        first_method,
    }));
    rows
}

impl Row {
    /// The row's and its group's.
    fn names(&self) -> (String, String) {
        let vectors = if self.vectors == 4 { "four vectors" } else { "one vector" };
        let group = format!("macroblock {vectors} {}", MODES[self.mode as usize]);
        let (picture, method) = (self.picture.name(), self.method());
        (format!("{group} {picture} fcode {} {method} method", self.fcode), group)
    }

    fn method(&self) -> &'static str {
        if self.first_method {
            "first"
        } else {
            "second"
        }
    }
}

/// A picture's planes. Its chroma is its luma at every second place of every second row.
pub struct Still {
    pub source: [Vec<u8>; 2],
    pub reference: [Vec<u8>; 2],
}

impl Still {
    pub fn new(picture: Picture) -> Self {
        let (source, reference) = pictures(picture);
        let half = |luma: &[u8]| -> Vec<u8> {
            let place = |k: usize| k / (WIDTH / 2) * 2 * WIDTH + k % (WIDTH / 2) * 2;
            (0..WIDTH * HEIGHT / 4).map(|k| luma[place(k)]).collect()
        };
        let chroma = [half(&source), half(&reference)];
        let [source_chroma, reference_chroma] = chroma;
        Still { source: [source, source_chroma], reference: [reference, reference_chroma] }
    }
}

pub struct Predicted {
    pub y: [u8; 256],
    pub chroma: [u8; 64],
}

fn search<'a>(row: &Row, still: &'a Still, k: usize) -> Search<'a> {
    let (width, height, stride) = (WIDTH, HEIGHT, WIDTH);
    Search {
        source: Source { samples: &still.source[0], width, height },
        column: k % COLUMNS,
        row: k / COLUMNS,
        reference: Reference { samples: &still.reference[0], width, height, stride },
        mode: row.mode,
        bits_per_pixel: 8,
        fcode: row.fcode,
    }
}

pub fn predictions(row: &Row, still: &Still) -> Vec<Predicted> {
    let predict = |k: usize| {
        let place = Place::new(&search(row, still, k));
        let vector = place.one().0;
        let motion = PvopMbMotion::OneMv(vector);
        let y = predict_luma_macroblock(motion, &place.reference, place.x, place.y, 0, place.mode)
            .expect("one vector always gives a prediction");
        let units = 2 * place.units();
        let (x, down) = (place.x / 2 + vector.x / units, place.y / 2 + vector.y / units);
        let at = |k: i32| {
            let x = (x + k % 8).clamp(0, WIDTH as i32 / 2 - 1) as usize;
            let y = (down + k / 8).clamp(0, HEIGHT as i32 / 2 - 1) as usize;
            still.reference[1][y * WIDTH / 2 + x]
        };
        Predicted { y, chroma: std::array::from_fn(|k| at(k as i32)) }
    };
    (0..MACROBLOCKS).map(predict).collect()
}

/// One macroblock as each side takes it.
struct Work<'a> {
    coding: Coding<'a>,
    coder: Coder<'a>,
}

fn works<'a>(
    row: &Row,
    still: &'a Still,
    predictions: &'a [Predicted],
    weights: &'a [u8],
) -> Vec<Work<'a>> {
    let first_method = row.first_method as u8;
    let work = |k: usize| {
        let Predicted { y, chroma } = &predictions[k];
        let coding = Coding {
            search: search(row, still, k),
            vectors: row.vectors,
            cb: &still.source[1],
            cr: &still.source[1],
            prediction: Prediction { y, cb: chroma, cr: chroma },
            quantising: Quantising { quantiser: QUANTISER, first_method, weights, scan: ZIGZAG },
        };
        Work { coding, coder: Coder::new(&coding) }
    };
    (0..MACROBLOCKS).map(work).collect()
}

fn time(works: &[Work], best: &mut [Times]) {
    let mut area = Area::new();
    let rust = |call: usize| {
        black_box(black_box(&works[call]).coder.code());
    };
    let rattle = |call: usize| {
        let reply = area.code(black_box(&works[call].coding));
        black_box((reply, &area));
    };
    measure_each(rust, rattle, best)
}

/// What the library fills.
pub struct Area {
    lasts: [u8; 384],
    runs: [u8; 384],
    levels: [i32; 384],
    vector: [i32; 2],
    sum: u32,
    four_vectors: [i32; 8],
    four_sums: [u32; 4],
    patterns: [u8; 2],
    counts: [u8; 6],
}

impl Area {
    pub fn new() -> Self {
        Area {
            lasts: [0; 384],
            runs: [0; 384],
            levels: [0; 384],
            vector: [0; 2],
            sum: 0,
            four_vectors: [0; 8],
            four_sums: [0; 4],
            patterns: [0; 2],
            counts: [0; 6],
        }
    }

    fn lent(&mut self) -> (Areas<'_>, Record<'_>) {
        let Area { lasts, runs, levels, vector, sum, four_vectors, four_sums, patterns, counts } =
            self;
        let record = Record { vector, sum, four_vectors, four_sums, patterns, counts };
        (Areas { lasts, runs, levels }, record)
    }

    pub fn code(&mut self, coding: &Coding) -> u8 {
        let (areas, record) = self.lent();
        ask::code_macroblock(coding, areas, record)
    }

    fn code_predicted(&mut self, coding: &Coding, making: &Making) -> u8 {
        let (areas, record) = self.lent();
        ask::code_predicted_macroblock(coding, making, areas, record)
    }

    /// Holds both sides to the same answers.
    fn assert_same(&self, reply: u8, coded: Coded) {
        let Coded { vector, sum, four, events, patterns } = coded;
        let (vectors, total) = match four {
            None => (vec![0; 8], 0),
            Some((vectors, total)) => (vectors.iter().flat_map(|v| [v.x, v.y]).collect(), total),
        };
        let four_sums = self.four_sums.iter().sum::<u32>();
        let got = (reply, self.vector, self.sum, self.four_vectors, four_sums);
        let vectors = vectors.try_into().expect("eight parts");
        let wanted = (0, [vector.x, vector.y], sum, vectors, total);
        assert_eq!(got, wanted, "the sides differ: see make compare");
        let same = self.has(&events) && self.patterns == [patterns.0, patterns.1];
        assert!(same, "the sides differ: see make compare");
    }

    /// Whether six blocks' events are these.
    fn has(&self, events: &[Vec<AcEvent>]) -> bool {
        let block = |b: usize| {
            let same = |i: usize| {
                let (at, event) = (64 * b + i, &events[b][i]);
                (self.lasts[at], self.runs[at], self.levels[at])
                    == (event.last as u8, event.run as u8, event.level)
            };
            usize::from(self.counts[b]) == events[b].len() && (0..events[b].len()).all(same)
        };
        (0..6).all(block)
    }
}
