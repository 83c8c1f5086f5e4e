//! Entries that take numbers alone and refuse none: `interpolate_pixel`, `split_half_pel`,
//! `split_quarter_pel` and `inter_scan`, against the originals of the same names. What the Rust has
//! as a `bool` is any byte here, 0 for no; its `ScanType` is a number.

use crate::guard::{held, Lent};
use crate::half_sample;
use crate::ivop_encode::EncoderConfig;
use crate::options::Options;
use crate::pvop_encode::{inter_scan, scan_number};
use crate::quarter_sample;
use crate::random::Random;
use crate::summary::Row;
use hencouch::raw;

pub fn compare(options: &Options) -> Vec<Row> {
    let mut random = Random::new(options.seed.wrapping_add(0x600 << 48));
    vec![
        pixels(options, &mut random),
        splits(options, Split::Half, &mut random),
        splits(options, Split::Quarter, &mut random),
        scans(options, &mut random),
    ]
}

/// Samples a, b, c, d, and three bytes: halves across and down, the rounding type.
fn pixel(
    [a, b, c, d]: [u8; 4],
    [half_x, half_y, rounding]: [u8; 3],
    salt: u8,
) -> Result<(), String> {
    let mut lent = Lent::<u8>::new(1, salt);
    let area = &mut lent.area()[0];
    let got = raw::interpolate_pixel(a, b, c, d, half_x, half_y, rounding, area);
    let wanted = half_sample::interpolate_pixel(a, b, c, d, half_x != 0, half_y != 0, rounding);
    held(&lent, got, 0, &[wanted]).map_err(|text| {
        let bytes = format!("half_x: {half_x}, half_y: {half_y}, rounding: {rounding}");
        format!("MISMATCH: {text}\na, b, c, d: {:?}\n{bytes}", [a, b, c, d])
    })
}

fn pixels(options: &Options, random: &mut Random) -> Row {
    let mut row = Row::never_refused("interpolate_pixel");
    row.listed(every_pair());
    for _ in 0..options.valid {
        let reach = random.pick(&[0, 1, 3, 255]);
        let near = random.byte();
        let samples = [(); 4].map(|()| near.wrapping_add(random.int(0, reach) as u8));
        let any = random.byte();
        let bytes = [(); 3].map(|()| random.pick(&[0, 1, 1, any, 2, 255]));
        row.valid(pixel(samples, bytes, random.byte()));
    }
    row
}

/// Every pair of samples across and down, and of four of which two are alike, by all four halves
/// and both rounding types.
fn every_pair() -> Result<usize, String> {
    let mut cases = 0;
    for pair in 0..=u16::MAX {
        let [a, b] = pair.to_be_bytes();
        for bits in 0..8 {
            let bytes = [bits & 1, bits >> 1 & 1, bits >> 2];
            pixel([a, b, b, a], bytes, 0xA5)?;
            pixel([a, b, a.wrapping_add(1), b], bytes, 0x5A)?;
            cases += 2;
        }
    }
    Ok(cases)
}

#[derive(Clone, Copy)]
enum Split {
    Half,
    Quarter,
}

impl Split {
    fn name(self) -> &'static str {
        match self {
            Split::Half => "split_half_pel",
            Split::Quarter => "split_quarter_pel",
        }
    }

    fn check(self, mv: i32, salt: u8) -> Result<(), String> {
        let mut whole = Lent::<i32>::new(1, salt);
        let mut part = Lent::<u8>::new(1, !salt);
        let (areas, left) = (&mut whole.area()[0], &mut part.area()[0]);
        let (got, wanted) = match self {
            Split::Half => {
                let (whole, half) = half_sample::split_half_pel(mv);
                (raw::split_half_pel(mv, areas, left), (whole, u8::from(half)))
            }
            Split::Quarter => {
                (raw::split_quarter_pel(mv, areas, left), quarter_sample::split_quarter_pel(mv))
            }
        };
        let found = held(&whole, got, 0, &[wanted.0]);
        let found = found.and_then(|()| held(&part, got, 0, &[wanted.1]));
        found.map_err(|text| format!("MISMATCH: {text}\nmv: {mv}"))
    }
}

fn splits(options: &Options, split: Split, random: &mut Random) -> Row {
    let mut row = Row::never_refused(split.name());
    let every = -(1 << 16)..=1 << 16;
    let ends = (i32::MIN..=i32::MIN + 64).chain(i32::MAX - 64..=i32::MAX);
    let mut all = every.chain(ends);
    row.listed(all.try_fold(0, |cases, mv| split.check(mv, 0xA5).map(|()| cases + 1)));
    for _ in 0..options.valid {
        let most = random.pick(&[31, 2047, 40_000, i32::MAX]);
        row.valid(split.check(random.int(-most - 1, most), random.byte()));
    }
    row
}

fn scan(interlaced: u8, alternate_scan: u8, salt: u8) -> Result<(), String> {
    let mut lent = Lent::<u32>::new(1, salt);
    let got = raw::inter_scan(interlaced, alternate_scan, &mut lent.area()[0]);
    let told = EncoderConfig { interlaced: interlaced != 0, alternate_scan: alternate_scan != 0 };
    let wanted = scan_number(inter_scan(&told));
    held(&lent, got, 0, &[wanted]).map_err(|text| {
        format!("MISMATCH: {text}\ninterlaced: {interlaced}, alternate_scan: {alternate_scan}")
    })
}

fn scans(options: &Options, random: &mut Random) -> Row {
    let mut row = Row::never_refused("inter_scan");
    let every = (0..=u16::MAX).map(u16::to_be_bytes);
    let mut cases = 0;
    let found = every.into_iter().try_for_each(|[interlaced, alternate]| {
        cases += 1;
        scan(interlaced, alternate, 0xA5)
    });
    row.listed(found.map(|()| cases));
    for _ in 0..options.valid {
        let any = random.byte();
        let [interlaced, alternate] = [(); 2].map(|()| random.pick(&[0, 0, 1, 255, any]));
        row.valid(scan(interlaced, alternate, random.byte()));
    }
    row
}
