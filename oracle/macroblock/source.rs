//! The source's blocks: `source_luma_block` and `source_chroma_block`, against the originals
//! `source_luma_mb` and `FrameView::block`. What `Macroblock` holds is also that of the activity.

use super::generator;
use super::lent::lines;
use super::planes::{chroma_places, place, Planes, KINDS};
use crate::ask::Source;
use crate::counted::{held as marks, strings, Counted, Mark};
use crate::damage::{self, bad_sides, beyond, places, too_short};
use crate::guard::{held, Lent};
use crate::ivop_encode::FrameView;
use crate::options::Options;
use crate::pvop_encode::{luma_view, source_luma_mb};
use crate::random::Random;
use crate::summary::Row;
use crate::tally::Tally;
use hencouch::raw;

const NUMBERS: &[u8] = &[6, 7, 8, 12];
const PICTURES: &str = "pictures";
const PLACES: &str = "macroblocks";

/// A macroblock of one plane of a source, whose sides are luma's.
#[derive(Clone, Copy)]
pub struct Macroblock<'a> {
    chroma: bool,
    pub source: Source<'a>,
    pub column: usize,
    pub row: usize,
}

impl<'a> Macroblock<'a> {
    /// The first of a source, of its luma.
    pub fn first(source: Source<'a>) -> Self {
        Macroblock { chroma: false, source, column: 0, row: 0 }
    }

    pub fn valid(chroma: bool, planes: &'a Planes, kind: usize, random: &mut Random) -> Self {
        let mut source = planes.source(kind, random);
        let (column, row) = place(&source, random);
        if chroma {
            source.samples = planes.chroma(&source, random);
        }
        Macroblock { chroma, source, column, row }
    }

    /// The exact number of samples that the plane has to have.
    fn wanted_len(&self) -> u128 {
        match self.chroma {
            true => chroma_places(&self.source),
            false => places(self.source.width, self.source.height),
        }
    }

    /// Whether 6, 7 and 8 hold.
    pub fn reasons(&self) -> [(u8, bool); 3] {
        let short = (self.source.samples.len() as u128) < self.wanted_len();
        [(6, bad_sides(&self.source)), (7, short), (8, beyond(&self.source, self.column, self.row))]
    }

    /// Gives it 6, 7 or 8. Its samples are to be longer than needed.
    pub fn spoil(&mut self, number: u8, random: &mut Random) {
        match number {
            6 => damage::sides(&mut self.source, random),
            7 if self.chroma => {
                if self.wanted_len() == 0 {
                    (self.source.width, self.source.height) = (4097, 16);
                }
                let len = too_short(self.wanted_len() - 1, self.source.samples.len(), random);
                self.source.samples = &self.source.samples[..len];
            }
            7 => damage::shorten(&mut self.source, random),
            _ => damage::place(&self.source, &mut self.column, &mut self.row, random),
        }
    }

    /// The arguments as text; of a long plane the front.
    pub fn text(&self) -> String {
        let Source { samples, width, height } = self.source;
        let Macroblock { column, row, .. } = self;
        let across = if self.chroma { width.div_ceil(2) } else { width };
        let plane = lines("samples", &samples[..samples.len().min(1 << 13)], across);
        format!("width: {width}, height: {height}, column: {column}, row: {row}\n{plane}")
    }

    /// Where it lies, by the names that both this and the activity count.
    pub fn lies(&self) -> Vec<(&'static str, bool)> {
        let Source { width, height, .. } = self.source;
        let (columns, rows) = (16 * (self.column + 1) > width, 16 * (self.row + 1) > height);
        vec![
            ("whole", !columns && !rows),
            ("column repeated", columns),
            ("row repeated", rows),
            ("side 4096", width == 4096 || height == 4096),
            ("side 1", width == 1 || height == 1),
        ]
    }
}

pub const LIES: [&str; 5] = ["whole", "column repeated", "row repeated", "side 4096", "side 1"];

struct Call<'a> {
    macroblock: Macroblock<'a>,
    out_len: usize,
}

fn name(chroma: bool) -> &'static str {
    if chroma {
        "source_chroma_block"
    } else {
        "source_luma_block"
    }
}

/// As long as the answer.
fn len(chroma: bool) -> usize {
    if chroma {
        64
    } else {
        256
    }
}

impl Call<'_> {
    fn reasons(&self) -> Vec<u8> {
        let mut all = self.macroblock.reasons().to_vec();
        all.push((12, self.out_len != len(self.macroblock.chroma)));
        all.iter().filter(|reason| reason.1).map(|reason| reason.0).collect()
    }

    fn check(&self, reply: u8, salt: u8) -> Result<(), String> {
        let mut lent = Lent::<u8>::new(self.out_len, salt);
        let Macroblock { chroma, source, column, row } = self.macroblock;
        let Source { samples, width, height } = source;
        let ask = if chroma { raw::source_chroma_block } else { raw::source_luma_block };
        let got = ask(samples, width, height, column, row, lent.area());
        let wanted = if reply == 0 { self.ask_original() } else { Vec::new() };
        let found = held(&lent, got, reply, &wanted);
        found.map_err(|text| format!("MISMATCH: {text}\n{}", self.macroblock.text()))
    }

    fn ask_original(&self) -> Vec<u8> {
        let Macroblock { chroma, source, column, row } = self.macroblock;
        let Source { samples, width, height } = source;
        let rows = if chroma {
            FrameView { y: &[], cb: samples, cr: &[], width, height }.block(row, column, 4).concat()
        } else {
            source_luma_mb(&luma_view(&source), row, column).concat()
        };
        rows.into_iter().map(|sample| sample as u8).collect()
    }
}

pub fn compare(options: &Options) -> Vec<Row> {
    [false, true].map(|chroma| compare_plane(chroma, options)).into()
}

fn compare_plane(chroma: bool, options: &Options) -> Row {
    let mut row = Row::new(name(chroma));
    let mut random = generator(options, 7 + u64::from(chroma));
    let planes = Planes::new(&mut random);
    let mut counted = Counted::new(name(chroma), all_marks());
    for turn in 0..options.valid {
        let kind = turn % KINDS.len();
        let macroblock = Macroblock::valid(chroma, &planes, kind, &mut random);
        row.valid(Call { macroblock, out_len: len(chroma) }.check(0, random.byte()));
        counted.count(marks_of(&macroblock, kind));
    }
    row.covered(counted.finish());
    Tally::new(name(chroma), NUMBERS).run(&mut row, options.refused, || {
        let call = damaged(chroma, &planes, &mut random);
        let reasons = call.reasons();
        let found = call.check(reasons[0], random.byte());
        (reasons, found)
    });
    row.unchanged(planes.unchanged());
    row
}

fn damaged<'a>(chroma: bool, planes: &'a Planes, random: &mut Random) -> Call<'a> {
    let mut macroblock = Macroblock::valid(chroma, planes, 0, random);
    macroblock.source.samples = planes.whole(0);
    let mut call = Call { macroblock, out_len: len(chroma) };
    for number in damage::choose(NUMBERS, random) {
        match number {
            12 => call.out_len = random.pick(&[0, 1, 63, 65, 255, 257, 320 - len(chroma), 384]),
            _ => call.macroblock.spoil(number, random),
        }
    }
    call
}

fn all_marks() -> Vec<(&'static str, Vec<String>)> {
    let parts = ["odd width", "odd height", "longer than needed"];
    vec![(PICTURES, strings(&KINDS)), (PLACES, strings(&[&LIES[..], &parts].concat()))]
}

fn marks_of(m: &Macroblock, kind: usize) -> Vec<Mark> {
    let mut lies = m.lies();
    lies.push(("odd width", m.source.width % 2 == 1));
    lies.push(("odd height", m.source.height % 2 == 1));
    lies.push(("longer than needed", m.source.samples.len() as u128 > m.wanted_len()));
    let mut all = vec![(PICTURES, KINDS[kind].to_string())];
    all.extend(marks(PLACES, lies));
    all
}
