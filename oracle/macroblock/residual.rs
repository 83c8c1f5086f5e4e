//! `macroblock_residual`, against the original's, whose luma of 16 x 16 is laid out as four blocks.

use super::generator;
use super::lent::lines;
use super::planes::{chroma_places, place, Planes, KINDS};
use super::predicted::{self, Predicted};
use crate::ask::{self, Macroblock, Prediction, Source};
use crate::counted::{held as marks, strings, Counted, Mark};
use crate::damage::{self, bad_sides, beyond, places, too_short};
use crate::guard::{held, Lent};
use crate::options::Options;
use crate::pvop_encode::{blocks_of, macroblock_residual, prediction_of, view_of};
use crate::random::Random;
use crate::summary::Row;
use crate::tally::Tally;

const NAME: &str = "macroblock_residual";
const NUMBERS: &[u8] = &[6, 7, 8, 12];
const PICTURES: &str = "pictures";
const PREDICTIONS: &str = "predictions";
const PLACES: &str = "macroblocks";
const ANSWERS: &str = "residuals";

struct Call<'a> {
    macroblock: Macroblock<'a>,
    out_len: usize,
}

/// All reasons of a macroblock's sides, planes and place, in order; also of the entry that codes.
pub fn source_reasons(m: &Macroblock) -> [(u8, bool); 3] {
    let Source { samples, width, height } = m.source;
    let short = (samples.len() as u128) < places(width, height)
        || (m.cb.len() as u128) < chroma_places(&m.source)
        || (m.cr.len() as u128) < chroma_places(&m.source);
    [(6, bad_sides(&m.source)), (7, short), (8, beyond(&m.source, m.column, m.row))]
}

/// Whether a prediction is not 256, 64 and 64 long.
pub fn bad_lengths(p: &Prediction) -> bool {
    (p.y.len(), p.cb.len(), p.cr.len()) != (256, 64, 64)
}

/// A macroblock's arguments as text.
pub fn text(m: &Macroblock) -> String {
    let Source { samples, width, height } = m.source;
    let mut text = format!("width: {width}, height: {height}\n");
    text += &format!("column: {}, row: {}\n", m.column, m.row);
    let half = width.div_ceil(2);
    let most = |samples: &[u8]| samples[..samples.len().min(1 << 16)].to_vec();
    text += &lines("y", &most(samples), width);
    text += &lines("cb", &most(m.cb), half);
    text += &lines("cr", &most(m.cr), half);
    text += &lines("pred_y", m.prediction.y, 16);
    text += &lines("pred_cb", m.prediction.cb, 8);
    text + &lines("pred_cr", m.prediction.cr, 8)
}

impl Call<'_> {
    fn reasons(&self) -> Vec<u8> {
        let mut all = source_reasons(&self.macroblock).to_vec();
        all.push((12, bad_lengths(&self.macroblock.prediction) || self.out_len != 384));
        all.iter().filter(|reason| reason.1).map(|reason| reason.0).collect()
    }

    /// Holds the library to `reply`; the original's answer, for a call with nothing wrong.
    fn check(&self, reply: u8, salt: u8) -> Result<Vec<i32>, String> {
        let mut lent = Lent::<i32>::new(self.out_len, salt);
        let m = &self.macroblock;
        let got = ask::macroblock_residual(m, lent.area());
        let wanted = if reply == 0 { self.ask_original() } else { Vec::new() };
        held(&lent, got, reply, &wanted).map_err(|found| {
            format!("MISMATCH: {NAME}: {found}\nout_len: {}\n{}", self.out_len, text(m))
        })?;
        Ok(wanted)
    }

    fn ask_original(&self) -> Vec<i32> {
        let m = &self.macroblock;
        let prediction = prediction_of(&m.prediction);
        let residual = macroblock_residual(&view_of(m), m.row, m.column, &prediction);
        blocks_of(&residual).concat().concat()
    }
}

pub fn compare(options: &Options) -> Vec<Row> {
    let mut row = Row::new(NAME);
    let mut random = generator(options, 1);
    let planes = Planes::new(&mut random);
    let mut counted = Counted::new(NAME, all_marks());
    for turn in 0..options.valid {
        let kind = turn % KINDS.len();
        let mut macroblock = valid(&planes, kind, &mut random);
        let predicted = Predicted::random(&macroblock, &mut random);
        macroblock.prediction = predicted.lent();
        let call = Call { macroblock, out_len: 384 };
        if let Some(residual) = row.valid(call.check(0, random.byte())) {
            counted.count(marks_of(&call, kind, predicted.kind, &residual));
        }
    }
    row.covered(counted.finish());
    Tally::new(NAME, NUMBERS).run(&mut row, options.refused, || {
        let call = damaged(&planes, &mut random);
        let reasons = call.reasons();
        let found = call.check(reasons[0], random.byte());
        (reasons, found)
    });
    row.unchanged(planes.unchanged());
    vec![row]
}

/// A macroblock with nothing wrong, against noise.
fn valid<'a>(planes: &'a Planes, kind: usize, random: &mut Random) -> Macroblock<'a> {
    let source = planes.source(kind, random);
    let (column, row) = place(&source, random);
    let (cb, cr) = (planes.chroma(&source, random), planes.chroma(&source, random));
    let prediction = Prediction {
        y: planes.part(0, 256, random),
        cb: planes.part(0, 64, random),
        cr: planes.part(0, 64, random),
    };
    Macroblock { source, cb, cr, column, row, prediction }
}

fn damaged<'a>(planes: &'a Planes, random: &mut Random) -> Call<'a> {
    let mut call = Call { macroblock: valid(planes, 0, random), out_len: 384 };
    let m = &mut call.macroblock;
    (m.source.samples, m.cb, m.cr) = (planes.whole(0), planes.whole(1), planes.whole(2));
    for number in damage::choose(NUMBERS, random) {
        match number {
            6 => damage::sides(&mut call.macroblock.source, random),
            7 => shorten(&mut call.macroblock, random),
            8 => {
                let Macroblock { source, column, row, .. } = &mut call.macroblock;
                damage::place(source, column, row, random)
            }
            _ if random.chance(40) => call.out_len = random.pick(&[0, 1, 64, 383, 385, 400]),
            _ => lengths(&mut call.macroblock.prediction, planes.whole(0), random),
        }
    }
    call
}

/// One plane or more with fewer samples than places, if there are places.
pub fn shorten(m: &mut Macroblock, random: &mut Random) {
    let which = random.size(1, 7);
    if which & 1 == 1 {
        damage::shorten(&mut m.source, random);
    }
    if m.source.width == 0 || m.source.height == 0 {
        (m.source.width, m.source.height) = (4097, 16);
    }
    let most = chroma_places(&m.source) - 1;
    for (plane, part) in [(&mut m.cb, 2), (&mut m.cr, 4)] {
        if which & part != 0 {
            *plane = &plane[..too_short(most, plane.len(), random)];
        }
    }
}

/// One prediction or more of another length.
pub fn lengths<'a>(p: &mut Prediction<'a>, store: &'a [u8], random: &mut Random) {
    let which = random.size(1, 7);
    for (plane, len, part) in [(&mut p.y, 256, 1), (&mut p.cb, 64, 2), (&mut p.cr, 64, 4)] {
        if which & part != 0 {
            let len = random.pick(&[0, 1, len - 1, len + 1, 320 - len, 384]);
            *plane = &store[..len];
        }
    }
}

fn all_marks() -> Vec<(&'static str, Vec<String>)> {
    vec![
        (PICTURES, strings(&KINDS)),
        (PREDICTIONS, predicted::KINDS.iter().map(|kind| format!("{kind:?}")).collect()),
        (PLACES, strings(&["whole", "column repeated", "row repeated", "odd width", "odd height"])),
        (ANSWERS, strings(&["all 0", "255", "-255"])),
    ]
}

fn marks_of(call: &Call, kind: usize, near: predicted::Kind, residual: &[i32]) -> Vec<Mark> {
    let m = &call.macroblock;
    let Source { width, height, .. } = m.source;
    let (columns, rows) = (16 * (m.column + 1) > width, 16 * (m.row + 1) > height);
    let mut all = vec![(PICTURES, KINDS[kind].to_string()), (PREDICTIONS, format!("{near:?}"))];
    let lies = vec![
        ("whole", !columns && !rows),
        ("column repeated", columns),
        ("row repeated", rows),
        ("odd width", width % 2 == 1),
        ("odd height", height % 2 == 1),
    ];
    all.extend(marks(PLACES, lies));
    let answers = vec![
        ("all 0", residual.iter().all(|&x| x == 0)),
        ("255", residual.contains(&255)),
        ("-255", residual.contains(&-255)),
    ];
    all.extend(marks(ANSWERS, answers));
    all
}
