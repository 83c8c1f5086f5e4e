//! `quantise_inter_block` and `quantise_inter_residual`, against the originals'. The six blocks of
//! the second one's residual are laid out as 16 x 16 luma and two blocks of chroma.

use super::generator;
use super::lent::{EventsLent, Laid};
use crate::ask::{self, Quantising};
use crate::counted::{held as marks, strings, Counted, Mark};
use crate::damage;
use crate::options::Options;
use crate::pvop_encode::{quantise_inter_block, quantise_inter_residual, rows_of, scan_of};
use crate::random::Random;
use crate::summary::Row;
use crate::tally::Tally;
use crate::texture::AcEvent;
use crate::transform::block::{residual, Kind};

const NUMBERS: &[u8] = &[10, 11, 12, 13, 14];
const SETTINGS: &str = "method and scan";
const QUANTISERS: &str = "quantisers";
const BLOCKS: &str = "blocks";

#[derive(Clone, Copy, PartialEq, Debug)]
enum Function {
    Block,
    Residual,
}

impl Function {
    fn name(self) -> &'static str {
        match self {
            Function::Block => "quantise_inter_block",
            Function::Residual => "quantise_inter_residual",
        }
    }

    fn blocks(self) -> usize {
        match self {
            Function::Block => 1,
            Function::Residual => 6,
        }
    }
}

#[derive(Clone, Debug)]
struct Call {
    function: Function,
    residual: Vec<i32>,
    quantiser: u32,
    first_method: u8,
    weights: Vec<u8>,
    scan: u32,
    /// Of marks, runs and levels.
    lens: [usize; 3],
}

impl Call {
    /// All reasons to turn the call back, in order.
    fn reasons(&self) -> Vec<u8> {
        let n = 64 * self.function.blocks();
        let quantiser = !(1..=31).contains(&self.quantiser);
        let weight = self.first_method != 0 && self.weights.contains(&0);
        let length = self.residual.len() != n || self.weights.len() != 64 || self.lens != [n; 3];
        let range = self.residual.iter().any(|x| !(-255..=255).contains(x));
        let all = [(10, quantiser), (11, weight), (12, length), (13, range), (14, self.scan > 2)];
        all.iter().filter(|reason| reason.1).map(|reason| reason.0).collect()
    }

    /// Holds the library to `reply`; the original's answer, for a call with nothing wrong.
    fn check(&self, reply: u8, random: &mut Random) -> Result<Laid, String> {
        let Call { quantiser, first_method, weights, scan, residual, .. } = self.clone();
        let quantising = Quantising { quantiser, first_method, weights: &weights, scan };
        let mut lent = EventsLent::new(self.lens, self.function.blocks(), random);
        let (areas, counts) = lent.areas();
        let got = match self.function {
            Function::Block => {
                ask::quantise_inter_block(&residual, &quantising, areas, &mut counts[0])
            }
            Function::Residual => {
                let counts = counts.try_into().expect("six counts");
                ask::quantise_inter_residual(&residual, &quantising, areas, counts)
            }
        };
        let wanted = if reply == 0 { Laid::out(&self.ask_original()) } else { Laid::default() };
        let same = residual == self.residual && weights == self.weights;
        let same = same.then_some(()).ok_or("residual or weights were changed".to_string());
        let found = lent.held(got, reply, &wanted).and(same);
        found.map_err(|text| format!("MISMATCH: {text}\n{self:?}"))?;
        Ok(wanted)
    }

    fn ask_original(&self) -> Vec<Vec<AcEvent>> {
        let (q, first, scan) = (self.quantiser, self.first_method != 0, scan_of(self.scan));
        let weights = rows_of(&self.weights);
        let block = |b: usize| rows_of::<i32, i32, 8>(&self.residual[64 * b..]);
        if self.function == Function::Block {
            return vec![quantise_inter_block(&block(0), q, first, &weights, scan).0];
        }
        let luma = std::array::from_fn(|j| {
            std::array::from_fn(|i| block(j / 8 * 2 + i / 8)[j % 8][i % 8])
        });
        quantise_inter_residual(&luma, &block(4), &block(5), q, first, &weights, scan)
    }
}

pub fn compare(options: &Options) -> Vec<Row> {
    let rows = [Function::Block, Function::Residual].map(|function| {
        let mut row = Row::new(function.name());
        let mut random = generator(options, 2 + function as u64);
        let mut counted = Counted::new(function.name(), all_marks());
        for turn in 0..options.valid {
            let call = valid(function, turn, &mut random);
            if let Some(wanted) = row.valid(call.check(0, &mut random)) {
                counted.count(marks_of(&call, &wanted));
            }
        }
        row.covered(counted.finish());
        Tally::new(function.name(), NUMBERS).run(&mut row, options.refused, || {
            let call = damaged(function, &mut random);
            let reasons = call.reasons();
            let found = call.check(reasons[0], &mut random);
            (reasons, found)
        });
        row
    });
    rows.into()
}

/// A call with nothing wrong. Under the second method the matrix may hold zeros.
fn valid(function: Function, turn: usize, random: &mut Random) -> Call {
    let mut numbers = Vec::new();
    for b in 0..function.blocks() {
        let kind = Kind::ALL[(turn + b) % Kind::ALL.len()];
        match random.chance(15) {
            true => numbers.extend([0; 64]),
            false => numbers.extend(residual(kind, random)),
        }
    }
    let first_method = if random.chance(50) { 0 } else { random.int(1, 255) as u8 };
    Call {
        function,
        quantiser: quantiser(random),
        first_method,
        weights: weights(first_method, random),
        scan: random.size(0, 2) as u32,
        lens: [numbers.len(); 3],
        residual: numbers,
    }
}

/// Any of 1..31, small ones and the greatest more often.
pub fn quantiser(random: &mut Random) -> u32 {
    let any = random.int(1, 31) as u32;
    random.pick(&[1, 1, 2, 3, 4, 5, 30, 31, any, any, any, any])
}

/// A matrix of 64: all alike, rising, or any.
pub fn weights(first_method: u8, random: &mut Random) -> Vec<u8> {
    let least = if first_method == 0 { 0 } else { 1 };
    let same = random.pick(&[1, 16, 255]);
    match random.size(0, 3) {
        0 => vec![same; 64],
        1 => (0..64).map(|k| 16 + k / 2).collect(),
        _ => (0..64).map(|_| random.int(least, 255) as u8).collect(),
    }
}

fn damaged(function: Function, random: &mut Random) -> Call {
    let mut call = valid(function, random.size(0, 6), random);
    for number in damage::choose(NUMBERS, random) {
        spoil(&mut call, number, random);
    }
    call
}

fn spoil(call: &mut Call, number: u8, random: &mut Random) {
    match number {
        10 => call.quantiser = damage::quantiser(random),
        11 => {
            call.first_method = random.pick(&[1, 2, 128, 255]);
            // A zero counts whatever the length.
            call.weights.resize(random.pick(&[64, 64, 64, 1, 63, 65, 128]), 1);
            let at = random.size(0, call.weights.len() - 1);
            call.weights[at] = 0;
        }
        12 => {
            let n = 64 * call.function.blocks();
            let len = random.pick(&[0, 1, 63, 65, n - 1, n + 1, 64 + 384 - n]);
            match random.size(0, 4) {
                0 => call.residual.resize(len, 0),
                1 => call.weights.resize(random.pick(&[0, 1, 63, 65, 128]), 1),
                area => call.lens[area - 2] = len,
            }
        }
        13 if call.residual.is_empty() => call.residual.push(256),
        13 => {
            let at = random.size(0, call.residual.len() - 1);
            call.residual[at] = random.pick(&[-256, 256, 511, -512, i32::MIN, i32::MAX]);
        }
        _ => call.scan = damage::scan(random),
    }
}

fn all_marks() -> Vec<(&'static str, Vec<String>)> {
    let methods = ["first", "second"];
    let settings = methods.iter().flat_map(|m| (0..3).map(move |s| format!("{m} {s}"))).collect();
    vec![
        (SETTINGS, settings),
        (QUANTISERS, (1..=31).map(|q: u32| q.to_string()).collect()),
        (BLOCKS, strings(&["no events", "one event", "64 events", "run 63", "2,047", "-2,047"])),
    ]
}

fn marks_of(call: &Call, wanted: &Laid) -> Vec<Mark> {
    let method = if call.first_method != 0 { "first" } else { "second" };
    let mut all = vec![
        (SETTINGS, format!("{method} {}", call.scan)),
        (QUANTISERS, call.quantiser.to_string()),
    ];
    let blocks = vec![
        ("no events", wanted.counts.contains(&0)),
        ("one event", wanted.counts.contains(&1)),
        ("64 events", wanted.counts.contains(&64)),
        ("run 63", wanted.runs.contains(&63)),
        ("2,047", wanted.levels.contains(&2047)),
        ("-2,047", wanted.levels.contains(&-2047)),
    ];
    all.extend(marks(BLOCKS, blocks));
    all
}
