//! `intra_activity`, against the original's over `source_luma_mb`.

use super::generator;
use super::planes::{Planes, KINDS};
use super::source::{Macroblock, LIES};
use crate::ask::{self, Source};
use crate::counted::{held as marks, strings, Counted, Mark};
use crate::damage;
use crate::guard::{held, Lent};
use crate::options::Options;
use crate::pvop_encode::{intra_activity, luma_view, source_luma_mb};
use crate::random::Random;
use crate::summary::Row;
use crate::tally::Tally;

const NAME: &str = "intra_activity";
const NUMBERS: &[u8] = &[6, 7, 8];
const PICTURES: &str = "pictures";
const PLACES: &str = "macroblocks";
const ANSWERS: &str = "answers";

/// Holds the library to `reply`; the original's answer, for a call with nothing wrong.
fn check(m: &Macroblock, reply: u8, salt: u8) -> Result<u32, String> {
    let mut lent = Lent::<u32>::new(1, salt);
    let got = ask::intra_activity(&m.source, m.column, m.row, &mut lent.area()[0]);
    let original = || intra_activity(&source_luma_mb(&luma_view(&m.source), m.row, m.column));
    let wanted = if reply == 0 { original() } else { 0 };
    let found = held(&lent, got, reply, &[wanted]);
    found.map_err(|text| format!("MISMATCH: {NAME}: {text}\n{}", m.text()))?;
    Ok(wanted)
}

pub fn compare(options: &Options) -> Vec<Row> {
    let mut row = Row::new(NAME);
    let mut random = generator(options, 0);
    let planes = Planes::new(&mut random);
    row.listed(one_among_zeros());
    let mut counted = Counted::new(NAME, all_marks());
    for turn in 0..options.valid {
        let kind = turn % KINDS.len();
        let macroblock = Macroblock::valid(false, &planes, kind, &mut random);
        if let Some(activity) = row.valid(check(&macroblock, 0, random.byte())) {
            counted.count(marks_of(&macroblock, kind, activity));
        }
    }
    row.covered(counted.finish());
    Tally::new(NAME, NUMBERS).run(&mut row, options.refused, || {
        let macroblock = damaged(&planes, &mut random);
        let all = macroblock.reasons();
        let reasons: Vec<u8> = all.iter().filter(|reason| reason.1).map(|r| r.0).collect();
        let found = check(&macroblock, reasons[0], random.byte());
        (reasons, found)
    });
    row.unchanged(planes.unchanged());
    vec![row]
}

/// One 255 among zeros has an activity of 255.
fn one_among_zeros() -> Result<usize, String> {
    for place in 0..256 {
        let mut samples = [0; 256];
        samples[place] = 255;
        let source = Source { samples: &samples, width: 16, height: 16 };
        if check(&Macroblock::first(source), 0, 0xA5)? != 255 {
            return Err(format!("{NAME}: one 255 among zeros, at {place}: not 255"));
        }
    }
    Ok(256)
}

fn damaged<'a>(planes: &'a Planes, random: &mut Random) -> Macroblock<'a> {
    let mut macroblock = Macroblock::valid(false, planes, 0, random);
    macroblock.source.samples = planes.whole(0);
    for number in damage::choose(NUMBERS, random) {
        macroblock.spoil(number, random);
    }
    macroblock
}

fn all_marks() -> Vec<(&'static str, Vec<String>)> {
    vec![
        (PICTURES, strings(&KINDS)),
        (PLACES, strings(&LIES)),
        (ANSWERS, strings(&["0", "255", "up to 2,000", "above 30,000"])),
    ]
}

fn marks_of(macroblock: &Macroblock, kind: usize, activity: u32) -> Vec<Mark> {
    let mut all = vec![(PICTURES, KINDS[kind].to_string())];
    all.extend(marks(PLACES, macroblock.lies()));
    let answers = vec![
        ("0", activity == 0),
        ("255", activity == 255),
        ("up to 2,000", (1..=2000).contains(&activity)),
        ("above 30,000", activity > 30_000),
    ];
    all.extend(marks(ANSWERS, answers));
    all
}
