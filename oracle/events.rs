//! Scans and events: `forward_scan`, `inverse_scan` and `levels_to_events`, against the originals
//! `forward_scan`, `inverse_scan` and `qfs_to_events`.

use crate::ask::Areas;
use crate::damage;
use crate::guard::{held, Lent};
use crate::ivop_encode;
use crate::macroblock::lent::{EventsLent, Laid};
use crate::options::Options;
use crate::random::Random;
use crate::scan::{self, ScanType};
use crate::summary::Row;
use crate::tally::Tally;
use hencouch::raw;

const SCANS: [ScanType; 3] =
    [ScanType::AlternateHorizontal, ScanType::AlternateVertical, ScanType::Zigzag];

#[derive(Clone, Copy, Debug, PartialEq)]
enum Function {
    Forward,
    Inverse,
    Events,
}

impl Function {
    fn name(self) -> &'static str {
        match self {
            Function::Forward => "forward_scan",
            Function::Inverse => "inverse_scan",
            Function::Events => "levels_to_events",
        }
    }

    fn numbers(self) -> &'static [u8] {
        match self {
            Function::Events => &[12, 13],
            _ => &[12, 13, 14],
        }
    }
}

/// Of a scan the first output area counts, of events all three.
#[derive(Clone, Debug)]
struct Call {
    function: Function,
    levels: Vec<i32>,
    scan: u32,
    out_len: usize,
    lasts_len: usize,
    runs_len: usize,
}

impl Call {
    /// All reasons to turn the call back, in order.
    fn reasons(&self) -> Vec<u8> {
        let events = self.function == Function::Events;
        let long = [self.levels.len(), self.out_len, self.lasts_len, self.runs_len];
        let length = long[..if events { 4 } else { 2 }].iter().any(|&n| n != 64);
        let range = self.levels.iter().any(|x| !(-2047..=2047).contains(x));
        let all = [(12, length), (13, range), (14, !events && self.scan > 2)];
        all.iter().filter(|reason| reason.1).map(|reason| reason.0).collect()
    }

    fn check(&self, random: &mut Random) -> Result<(), String> {
        let reply = self.reasons().first().copied().unwrap_or(0);
        let handed = self.clone();
        let found = match self.function {
            Function::Events => handed.check_events(reply, random),
            _ => handed.check_scan(reply, random.byte()),
        };
        let same = handed.levels == self.levels;
        let same = same.then_some(()).ok_or("the levels were changed".to_string());
        found.and(same).map_err(|text| format!("MISMATCH: {text}\n{self:?}"))
    }

    fn check_scan(&self, reply: u8, salt: u8) -> Result<(), String> {
        let mut lent = Lent::<i32>::new(self.out_len, salt);
        let forward = self.function == Function::Forward;
        let ask = if forward { raw::forward_scan } else { raw::inverse_scan };
        let got = ask(&self.levels, self.scan, lent.area());
        let wanted = if reply == 0 { self.original_scan() } else { Vec::new() };
        held(&lent, got, reply, &wanted)
    }

    fn original_scan(&self) -> Vec<i32> {
        let scan = SCANS[self.scan as usize];
        if self.function == Function::Forward {
            let rows = std::array::from_fn(|v| std::array::from_fn(|u| self.levels[v * 8 + u]));
            return ivop_encode::forward_scan(&rows, scan).to_vec();
        }
        let levels: &[i32; 64] = self.levels.as_slice().try_into().expect("64 levels");
        scan::inverse_scan(levels, scan).concat()
    }

    fn check_events(&self, reply: u8, random: &mut Random) -> Result<(), String> {
        let lens = [self.lasts_len, self.runs_len, self.out_len];
        let mut lent = EventsLent::new(lens, 1, random);
        let (Areas { lasts, runs, levels }, counts) = lent.areas();
        let got = raw::levels_to_events(&self.levels, lasts, runs, levels, &mut counts[0]);
        let wanted = if reply == 0 { self.original_events() } else { Laid::default() };
        lent.held(got, reply, &wanted)
    }

    fn original_events(&self) -> Laid {
        let levels: &[i32; 64] = self.levels.as_slice().try_into().expect("64 levels");
        Laid::out(&[ivop_encode::qfs_to_events(levels, 0)])
    }
}

pub fn compare(options: &Options) -> Vec<Row> {
    let rows = [Function::Forward, Function::Inverse, Function::Events].map(|function| {
        let mut row = Row::new(function.name());
        let mut random = Random::new(options.seed.wrapping_add(0x20 + function as u64));
        for turn in 0..options.valid {
            row.valid(valid(function, turn, &mut random).check(&mut random));
        }
        let tally = Tally::new(function.name(), function.numbers());
        tally.run(&mut row, options.refused, || {
            let call = damaged(function, &mut random);
            (call.reasons(), call.check(&mut random))
        });
        row
    });
    rows.into()
}

/// A call with nothing wrong. Every seventh block is empty, full, or has one level, first, last or
/// anywhere; the others have from few to many.
fn valid(function: Function, turn: usize, random: &mut Random) -> Call {
    let percent = random.pick(&[2, 5, 10, 25, 50, 75, 95]);
    let reach = random.pick(&[1, 2, 10, 2047]);
    let mut levels: Vec<i32> = vec![0; 64];
    let level = |random: &mut Random| match random.int(-reach, reach) {
        0 => random.pick(&[-2047, 2047]),
        other => other,
    };
    match turn % 7 {
        0 => {}
        1 => levels.iter_mut().for_each(|x| *x = level(random)),
        2 => levels[63] = level(random),
        3 => levels[0] = level(random),
        4 => levels[random.size(0, 63)] = level(random),
        _ => {
            for x in &mut levels {
                *x = if random.chance(percent) { level(random) } else { 0 };
            }
        }
    }
    let scan = (turn % 3) as u32;
    Call { function, levels, scan, out_len: 64, lasts_len: 64, runs_len: 64 }
}

fn damaged(function: Function, random: &mut Random) -> Call {
    let mut call = valid(function, random.size(0, 41), random);
    for number in damage::choose(function.numbers(), random) {
        spoil(&mut call, number, random);
    }
    call
}

fn spoil(call: &mut Call, number: u8, random: &mut Random) {
    match number {
        12 => {
            let len = random.pick(&[0, 1, 63, 65, 384]);
            match random.size(0, if call.function == Function::Events { 3 } else { 1 }) {
                0 => call.out_len = len,
                1 => call.levels.resize(len, 0),
                2 => call.lasts_len = len,
                _ => call.runs_len = len,
            }
        }
        13 if call.levels.is_empty() => call.levels.push(2048),
        13 => {
            let at = random.size(0, call.levels.len() - 1);
            call.levels[at] = random.pick(&[-2048, 2048, 4096, i32::MIN, i32::MAX]);
        }
        _ => call.scan = damage::scan(random),
    }
}
