//! What the valid calls covered: fractions, sides, rounding, bits, shapes of planes, places and
//! limits.

use crate::sample::call::{Call, Function};
use crate::sample::plane::{Plane, SHAPES};
use std::collections::{BTreeMap, BTreeSet};

/// A run of at least this many calls has to cover everything that is counted.
const ENOUGH: usize = 100_000;

/// What the valid calls of one function covered.
#[derive(Default)]
pub struct Valid {
    calls: usize,
    /// Fractions, sides, rounding bit and, in quarter mode, bits per pixel.
    combinations: BTreeSet<(usize, usize, usize, usize, u8, u32)>,
    fractions: BTreeMap<(usize, usize), usize>,
    shapes: [usize; SHAPES.len()],
    places: BTreeMap<&'static str, usize>,
    /// The numbers that were at a limit, and which limit.
    limits: BTreeSet<(&'static str, i32)>,
    /// Calls with a rounding byte above 1.
    other_rounding: usize,
    /// Calls on a plane with a sample above 2^bits_per_pixel - 1.
    above_bits: usize,
}

impl Valid {
    pub fn count(&mut self, call: &Call, plane: &Plane) {
        let b = &call.block;
        let (x, y) = call.fractions();
        let bits = match call.function {
            Function::Half => 0,
            Function::Quarter => call.bits_per_pixel,
        };
        self.calls += 1;
        self.combinations.insert((x, y, b.block_w, b.block_h, b.rounding & 1, bits));
        *self.fractions.entry((x, y)).or_default() += 1;
        self.shapes[plane.shape] += 1;
        *self.places.entry(lies(call)).or_default() += 1;
        self.other_rounding += usize::from(b.rounding > 1);
        self.above_bits += usize::from(u32::from(plane.largest) >> call.bits_per_pixel != 0);
        for (name, number, low, high) in [
            ("origin_x", b.origin_x, -4096, 4096),
            ("origin_y", b.origin_y, -4096, 4096),
            ("mv_x", b.mv_x, -2048, 2047),
            ("mv_y", b.mv_y, -2048, 2047),
        ] {
            if number == low || number == high {
                self.limits.insert((name, number));
            }
        }
    }

    pub fn print(&self, function: Function) {
        let name = function.name();
        println!("{name}: {} valid calls equal", self.calls);
        let fewest = self.fractions.values().min().copied().unwrap_or(0);
        println!("{name}: {} fraction pairs, each at least {fewest} times", self.fractions.len());
        println!(
            "{name}: {} of {} combinations of fractions, sides, rounding and bits",
            self.combinations.len(),
            combinations(function)
        );
        println!("{name}: planes {}", list(SHAPES.iter().zip(self.shapes)));
        println!("{name}: blocks {}", list(self.places.iter()));
        println!("{name}: {} of 8 limits of origin and vector", self.limits.len());
        println!("{name}: {} calls with a rounding byte above 1", self.other_rounding);
        if function == Function::Quarter {
            let within = self.calls - self.above_bits;
            println!("{name}: samples within the bits {within}, some above {}", self.above_bits);
        }
    }

    /// A long run has to have left nothing out.
    pub fn complete(&self, function: Function) -> Result<(), String> {
        let all = self.combinations.len() == combinations(function)
            && self.limits.len() == 8
            && self.places.len() == 3
            && self.shapes.iter().all(|&calls| calls > 0);
        if self.calls >= ENOUGH && !all {
            return Err(format!("{}: the valid calls left something uncovered", function.name()));
        }
        Ok(())
    }
}

/// `name count, name count`.
fn list<N: std::fmt::Display, C: std::fmt::Display>(items: impl Iterator<Item = (N, C)>) -> String {
    let words: Vec<String> = items.map(|(name, count)| format!("{name} {count}")).collect();
    words.join(", ")
}

/// How many combinations of fractions, sides, rounding bit and bits per pixel there are.
fn combinations(function: Function) -> usize {
    match function {
        Function::Half => 4 * 4 * 2,
        Function::Quarter => 16 * 4 * 2 * 8,
    }
}

/// Where the samples that a block reads lie.
fn lies(call: &Call) -> &'static str {
    let (x, y) = call.start();
    let axis = |start: i32, side: usize, length: usize| {
        let (last, length) = (start + side as i32, length as i32);
        (start >= 0 && last < length, last < 0 || start >= length)
    };
    let (inside_x, outside_x) = axis(x, call.block.block_w, call.reference.width);
    let (inside_y, outside_y) = axis(y, call.block.block_h, call.reference.height);
    match (inside_x && inside_y, outside_x || outside_y) {
        (true, _) => "inside",
        (_, true) => "outside",
        _ => "across an edge",
    }
}
