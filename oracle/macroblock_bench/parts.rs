//! Parts of the coding, timed by themselves: activity, residual and the events of a residual. What
//! is timed at a time are all macroblocks of a picture in turn, so that none is met twice in a row.

use super::{predictions, weights, works, Area, Predicted, Row, Still, Work, MACROBLOCKS};
use crate::ask::{self, Areas};
use crate::pvop_encode::{intra_activity, source_luma_mb, view_of};
use crate::search_bench::{Picture, PICTURES};
use crate::table::{Over, Table};
use crate::timing::{measure, Times};
use crate::wanted::Wanted;
use std::hint::black_box;
use std::time::Duration;

const PASSES: usize = 6;
const BUDGET: Duration = Duration::from_millis(60);

pub struct Part {
    name: &'static str,
    /// Whether the method counts.
    by_method: bool,
    /// Holds both sides to the same answers, then times them.
    time: fn(&[Work]) -> Times,
}

/// Lists, so that a program that times one names no entry of the other.
pub const MACROBLOCK: &[Part] =
    &[Part { name: "intra_activity", by_method: false, time: activity }];
pub const CODING: &[Part] = &[
    Part { name: "macroblock_residual", by_method: false, time: residual },
    Part { name: "quantise_inter_residual", by_method: true, time: events },
];

/// Of each picture by the second method, and where the method counts one by the first.
pub fn bench(parts: &[Part], wanted: &mut Wanted) {
    let stills = PICTURES.map(Still::new);
    let weights = weights();
    let rows = [(Picture::Textured, false), (Picture::Bees, false), (Picture::Bees, true)];
    let rows = rows.map(|(picture, first_method)| {
        let (vectors, mode, fcode) = (1, 0, 1);
        Row { vectors, mode, picture, fcode, first_method }
    });
    let lent: [Vec<Predicted>; 3] =
        std::array::from_fn(|k| predictions(&rows[k], &stills[rows[k].picture as usize]));
    let works: [Vec<Work>; 3] = std::array::from_fn(|k| {
        works(&rows[k], &stills[rows[k].picture as usize], &lent[k], &weights)
    });
    let mut table = Table::new("parts of the coding, a macroblock");
    let mut timed = Vec::new();
    for part in parts {
        let group = format!("part {}", part.name);
        for (k, row) in rows.iter().enumerate().filter(|(_, r)| part.by_method || !r.first_method) {
            let method =
                if part.by_method { format!(" {} method", row.method()) } else { "".into() };
            table.row(format!("{group} {}{method}", row.picture.name()), &[(&group, Over::Sums)]);
            timed.push((part, &works[k]));
        }
    }
    table.run(wanted, PASSES, |at, best| best.best((timed[at].0.time)(timed[at].1)));
}

/// Times two sides that are handed the number of a macroblock; nanoseconds are for one.
fn each(mut rust: impl FnMut(usize), mut rattle: impl FnMut(usize)) -> Times {
    let all = measure(
        |_| (0..MACROBLOCKS).for_each(&mut rust),
        |_| (0..MACROBLOCKS).for_each(&mut rattle),
        BUDGET,
    );
    let count = MACROBLOCKS as f64;
    Times { rust: all.rust / count, rattle: all.rattle / count }
}

fn activity(works: &[Work]) -> Times {
    let by_rust = |k: usize| {
        let m = black_box(&works[k]).coding.macroblock();
        intra_activity(&source_luma_mb(&view_of(&m), m.row, m.column))
    };
    let by_rattle = |k: usize| {
        let m = black_box(&works[k]).coding.macroblock();
        let mut sum = 0;
        let reply = ask::intra_activity(&m.source, m.column, m.row, &mut sum);
        (reply, sum)
    };
    for k in 0..MACROBLOCKS {
        assert_eq!(by_rattle(k), (0, by_rust(k)), "the sides differ: see make compare");
    }
    let rust = |k: usize| {
        black_box(by_rust(k));
    };
    let rattle = |k: usize| {
        black_box(by_rattle(k));
    };
    each(rust, rattle)
}

fn residual(works: &[Work]) -> Times {
    let mut out = [0; 384];
    for work in works {
        let reply = ask::macroblock_residual(&work.coding.macroblock(), &mut out);
        let wanted = work.coder.six_residuals();
        assert_eq!((reply, &out[..]), (0, &wanted[..]), "the sides differ: see make compare");
    }
    let rust = |k: usize| {
        black_box(black_box(&works[k]).coder.residual());
    };
    let rattle = |k: usize| {
        let macroblock = black_box(&works[k]).coding.macroblock();
        black_box((ask::macroblock_residual(&macroblock, &mut out), &out));
    };
    each(rust, rattle)
}

fn events(works: &[Work]) -> Times {
    let residuals: Vec<_> = works.iter().map(|work| work.coder.residual()).collect();
    let six: Vec<Vec<i32>> = works.iter().map(|work| work.coder.six_residuals()).collect();
    let mut area = Area::new();
    let ask = |k: usize, area: &mut Area| {
        let Area { lasts, runs, levels, counts, .. } = area;
        let quantising = &works[k].coding.quantising;
        let areas = Areas { lasts, runs, levels };
        ask::quantise_inter_residual(black_box(&six[k]), quantising, areas, counts)
    };
    for (k, work) in works.iter().enumerate() {
        let reply = ask(k, &mut area);
        let same = area.has(&work.coder.events_of(&residuals[k]));
        assert!(reply == 0 && same, "the sides differ: see make compare");
    }
    let rust = |k: usize| {
        black_box(works[k].coder.events_of(black_box(&residuals[k])));
    };
    let rattle = |k: usize| {
        let reply = ask(k, &mut area);
        black_box((reply, &area));
    };
    each(rust, rattle)
}
