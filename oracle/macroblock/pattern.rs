//! `inter_cbp`, against the original's over so many events.

use super::generator;
use crate::guard::{held, Lent};
use crate::options::Options;
use crate::pvop_encode::inter_cbp;
use crate::summary::Row;
use crate::texture::AcEvent;
use hencouch::raw;

const NAME: &str = "inter_cbp";

/// Holds the library to the original.
fn check(counts: &[u8; 6], salt: u8) -> Result<(), String> {
    let handed = *counts;
    let mut lent = Lent::<u8>::new(2, salt);
    let area: &mut [u8; 2] = lent.area().try_into().expect("an area of 2");
    let got = raw::inter_cbp(&handed, area);
    let event = AcEvent { last: true, run: 0, level: 1 };
    let events: Vec<Vec<AcEvent>> = counts.iter().map(|&n| vec![event; n.into()]).collect();
    let (luma, chroma) = inter_cbp(&events);
    let found = held(&lent, got, 0, &[luma, chroma]);
    let same = if handed == *counts { Ok(()) } else { Err("counts were changed".to_string()) };
    found.and(same).map_err(|text| format!("MISMATCH: {NAME}: {text}\ncounts: {counts:?}"))
}

pub fn compare(options: &Options) -> Vec<Row> {
    let mut row = Row::never_refused(NAME);
    let mut random = generator(options, 4);
    row.listed(every_set());
    for _ in 0..options.valid {
        let percent = random.pick(&[10, 50, 90]);
        let most = random.pick(&[1, 64, 255]);
        let counts = std::array::from_fn(|_| match random.chance(percent) {
            true => random.int(1, most) as u8,
            false => 0,
        });
        row.valid(check(&counts, random.byte()));
    }
    vec![row]
}

/// All 64 sets of blocks with events, of several counts each.
fn every_set() -> Result<usize, String> {
    let counts = [1, 2, 64, 128, 255];
    for coded in 0..64 {
        for count in counts {
            check(&std::array::from_fn(|b| if coded >> b & 1 == 1 { count } else { 0 }), 0xA5)?;
        }
    }
    Ok(64 * counts.len())
}
