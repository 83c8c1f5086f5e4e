//! Levels, scan and events of a block, timed together: the originals on one side, three calls of
//! the library on the other. The coefficients are noise whose size falls with the place. Output
//! areas are not cleared between calls, and the library judges its arguments in every call.

use crate::ivop_encode::{forward_scan, qfs_to_events};
use crate::quantise::{quantise_method1_inter, quantise_method2_inter};
use crate::random::Random;
use crate::scan::ScanType;
use crate::table::{Over, Table};
use crate::texture::AcEvent;
use crate::timing::{measure, Times, MIX};
use crate::wanted::Wanted;
use hencouch::raw;
use std::hint::black_box;
use std::time::Duration;

const PASSES: usize = 6;
const BUDGET: Duration = Duration::from_millis(60);

type Rows = [[i32; 8]; 8];

struct Setting {
    first_method: bool,
    quantiser: u32,
    /// The size of the first coefficient; the last one's is a sixty-fourth of it.
    size: i32,
}

pub fn bench(wanted: &mut Wanted) {
    let mut table = Table::new("levels, scan and events, a block");
    let mut settings = Vec::new();
    for first_method in [false, true] {
        let group = format!("levels {} method", if first_method { "first" } else { "second" });
        for (quantiser, size) in [(5, 60), (5, 600), (12, 600), (31, 2000)] {
            table.row(format!("{group} q {quantiser} to {size}"), &[(&group, Over::Sums)]);
            settings.push(Setting { first_method, quantiser, size });
        }
    }
    table.run(wanted, PASSES, |at, best| best.best(time(&settings[at])));
}

/// Holds both sides to the same events, then times them.
fn time(setting: &Setting) -> Times {
    let mut random = Random::new(7);
    let blocks: Vec<[i32; 64]> = (0..8 * MIX)
        .map(|_| {
            std::array::from_fn(|i| {
                let size = (setting.size / (1 + i as i32)).max(1);
                random.int(-size, size)
            })
        })
        .collect();
    let weights: [u8; 64] = std::array::from_fn(|i| 16 + i as u8 / 4);
    let rows: Vec<Rows> = blocks.iter().map(by_rows).collect();
    let matrix: [[u8; 8]; 8] = std::array::from_fn(|v| std::array::from_fn(|u| weights[v * 8 + u]));
    let mut areas = Areas::new();
    for (block, rows) in blocks.iter().zip(&rows) {
        let events = by_rust(setting, rows, &matrix);
        areas.by_rattle(setting, block, &weights);
        areas.assert_same(&events);
    }
    let rust = |call: usize| {
        let rows = black_box(&rows[call % rows.len()]);
        black_box(by_rust(setting, rows, black_box(&matrix)));
    };
    let rattle = |call: usize| {
        let block = black_box(&blocks[call % blocks.len()]);
        areas.by_rattle(setting, block, black_box(&weights));
        black_box(&areas.count);
    };
    measure(rust, rattle, BUDGET)
}

fn by_rows(block: &[i32; 64]) -> Rows {
    std::array::from_fn(|v| std::array::from_fn(|u| block[v * 8 + u]))
}

/// What `quantise_inter_block` of the originals does after its transform.
fn by_rust(setting: &Setting, f: &Rows, weights: &[[u8; 8]; 8]) -> Vec<AcEvent> {
    let mut levels = [[0i32; 8]; 8];
    for v in 0..8 {
        for u in 0..8 {
            levels[v][u] = if setting.first_method {
                quantise_method1_inter(f[v][u], weights[v][u], setting.quantiser)
            } else {
                quantise_method2_inter(f[v][u], setting.quantiser)
            };
        }
    }
    qfs_to_events(&forward_scan(&levels, ScanType::Zigzag), 0)
}

struct Areas {
    levels: [i32; 64],
    ordered: [i32; 64],
    lasts: [u8; 64],
    runs: [u8; 64],
    out_levels: [i32; 64],
    count: u8,
}

impl Areas {
    fn new() -> Self {
        let (levels, ordered, out_levels) = ([0; 64], [0; 64], [0; 64]);
        Areas { levels, ordered, lasts: [0; 64], runs: [0; 64], out_levels, count: 0 }
    }

    fn by_rattle(&mut self, setting: &Setting, block: &[i32; 64], weights: &[u8; 64]) {
        let method = setting.first_method as u8;
        let q = setting.quantiser;
        let replies = [
            raw::quantise_block(block, q, method, weights, &mut self.levels),
            raw::forward_scan(&self.levels, 2, &mut self.ordered),
            raw::levels_to_events(
                &self.ordered,
                &mut self.lasts,
                &mut self.runs,
                &mut self.out_levels,
                &mut self.count,
            ),
        ];
        black_box(replies);
    }

    fn assert_same(&self, events: &[AcEvent]) {
        assert_eq!(events.len(), self.count as usize, "the sides differ: see make compare");
        for (i, event) in events.iter().enumerate() {
            let got = (self.lasts[i], self.runs[i], self.out_levels[i]);
            let wanted = (event.last as u8, event.run as u8, event.level);
            assert_eq!(got, wanted, "the sides differ: see make compare");
        }
    }
}
