//! `open`, `next_place` and `close`, which the Rust has nothing of: one call each, held to the rule
//! written out here in exact numbers, with the run lent between guards.

use crate::ask::Run;
use crate::guard::{held, Lent};

/// Macroblocks, events, one-vector sums.
pub type Totals = [u64; 3];

/// A reply, and whether it and all that was lent were as they have to be.
pub type Called<T> = (u8, Result<T, String>);

/// How many macroblocks a side has.
fn over_16(side: u64) -> u64 {
    side.div_ceil(16)
}

/// Whether the run is at its end.
pub fn ended(run: &Run) -> bool {
    u128::from(run[2]) >= u128::from(over_16(run[0])) * u128::from(over_16(run[1]))
}

/// Column and row of the next macroblock.
pub fn place_of(run: &Run) -> [u64; 2] {
    match over_16(run[0]) {
        0 => [run[2], 0],
        columns => [run[2] % columns, run[2] / columns],
    }
}

pub fn open(width: usize, height: usize, salt: u8) -> Called<Run> {
    let side = 1..=4096;
    let reply = if side.contains(&width) && side.contains(&height) { 0 } else { 6 };
    let mut lent = Lent::<u64>::new(5, salt);
    let area = lent.area().try_into().expect("an area of 5");
    let got = hencouch::raw::open(width, height, area);
    let run = [width as u64, height as u64, 0, 0, 0];
    let found = held(&lent, got, reply, &run);
    (reply, found.map(|()| run).map_err(|text| format!("{text}\nopen: {width}, {height}")))
}

pub fn next_place(run: &Run, salt: u8) -> Called<[u64; 2]> {
    reading("next_place", run, 0, place_of(run), salt, hencouch::raw::next_place)
}

pub fn close(run: &Run, salt: u8) -> Called<Totals> {
    let reply = if ended(run) { 0 } else { 23 };
    reading("close", run, reply, [run[2], run[3], run[4]], salt, hencouch::raw::close)
}

/// A call that reads a run and fills an area of `N`.
fn reading<const N: usize>(
    name: &str,
    run: &Run,
    reply: u8,
    wanted: [u64; N],
    salt: u8,
    ask: fn(&Run, &mut [u64; N]) -> u8,
) -> Called<[u64; N]> {
    let mut lent = Lent::<u64>::new(N, salt);
    let handed = *run;
    let got = ask(&handed, lent.area().try_into().expect("an area of N"));
    let same = if handed == *run { Ok(()) } else { Err("the run was changed".to_string()) };
    let found = held(&lent, got, reply, &wanted).and(same);
    (reply, found.map(|()| wanted).map_err(|text| format!("{text}\n{name}: {run:?}")))
}
