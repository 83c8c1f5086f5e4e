//! The entry that searches, predicts and codes, timed as the lent form is, on one picture at fcode 1.
//! The rounding type is 0. The other side is the same work by the originals; their planes are judged
//! once, before the timing.

use super::{predictions, weights, works, Area, Predicted, Row, Still, Work};
use crate::ask::{Making, Reference};
use crate::predicted::Planes;
use crate::search_bench::{Picture, HEIGHT, MACROBLOCKS, WIDTH};
use crate::table::Table;
use crate::timing::{measure_each, Times};
use crate::wanted::Wanted;
use std::hint::black_box;

const PASSES: usize = 12;

pub fn bench(wanted: &mut Wanted) {
    let still = Still::new(Picture::Bees);
    let (making, weights) = (making(&still), weights());
    let [luma, _] = &still.reference;
    let luma = Reference { samples: luma, width: WIDTH, height: HEIGHT, stride: WIDTH };
    let planes = Planes::new(&making.reference(luma));
    let rows: [Row; 4] = [(1, 0), (1, 1), (4, 0), (4, 1)].map(|(vectors, mode)| {
        let (picture, fcode, first_method) = (Picture::Bees, 1, false);
        Row { vectors, mode, picture, fcode, first_method }
    });
    // The lent form's, which this form is not handed.
    let lent: [Vec<Predicted>; 4] = std::array::from_fn(|k| predictions(&rows[k], &still));
    let mut table = Table::new("search, prediction and coding, a macroblock");
    let mut timed: Vec<(Vec<Work>, Vec<Times>)> = Vec::new();
    for (row, lent) in rows.iter().zip(&lent) {
        table.row(format!("predicted {}", row.names().0), &[]);
        let works = works(row, &still, lent, &weights);
        for work in &works {
            let mut area = Area::new();
            let reply = area.code_predicted(&work.coding, &making);
            area.assert_same(reply, work.coder.code_predicted(&planes, making.rounding));
        }
        timed.push((works, vec![Times::NONE; MACROBLOCKS]));
    }
    table.run(wanted, PASSES, |at, _| {
        let (works, best) = &mut timed[at];
        time(works, &making, &planes, best);
        Times::mean(best)
    });
}

/// Both chroma planes are one.
fn making(still: &Still) -> Making<'_> {
    let [_, chroma] = &still.reference;
    Making { cb: chroma, cr: chroma, chroma_stride: WIDTH / 2, rounding: 0 }
}

fn time(works: &[Work], making: &Making, planes: &Planes, best: &mut [Times]) {
    let mut area = Area::new();
    let rust = |call: usize| {
        let work = black_box(&works[call]);
        black_box(work.coder.code_predicted(black_box(planes), making.rounding));
    };
    let rattle = |call: usize| {
        let reply = area.code_predicted(black_box(&works[call].coding), black_box(making));
        black_box((reply, &area));
    };
    measure_each(rust, rattle, best)
}
