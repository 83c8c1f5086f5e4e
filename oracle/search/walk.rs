//! The search written once more, over the original's sums, in the right form or a wrong one.

use super::call::{Answer, Call, Function};
use super::form::Form;
use super::sums::Sums;
use crate::motion::MotionVector;
use crate::pvop_encode::{Part, Place};
use std::ops::RangeInclusive;

/// Half the side of the square that is searched sample by sample.
const SQUARE: i32 = 8;

/// The walks of one call. They share their sums.
pub struct Walks<'a> {
    function: Function,
    seed: (i32, i32),
    place: &'a Place<'a>,
    sums: Vec<Sums<'a>>,
}

impl<'a> Walks<'a> {
    pub fn new(call: &Call, place: &'a Place<'a>) -> Self {
        let parts = match call.function {
            Function::One => vec![Part::Whole],
            Function::Four => (0..4).map(Part::Block).collect(),
        };
        let sums = parts.into_iter().map(|part| Sums::new(place, part)).collect();
        Walks { function: call.function, seed: call.seed, place, sums }
    }

    pub fn walk(&mut self, form: Form) -> Answer {
        let mut answer = Answer::default();
        for sums in &mut self.sums {
            let mut walk = Walk { form, place: self.place, sums };
            let start = match self.function {
                Function::One => walk.one(),
                Function::Four => walk.near(self.seed),
            };
            let (vector, sum) = walk.refine(start);
            answer.push(vector, sum);
        }
        answer
    }
}

struct Walk<'w, 'a> {
    form: Form,
    place: &'w Place<'a>,
    sums: &'w mut Sums<'a>,
}

/// A place and its cost.
#[derive(Clone, Copy)]
struct Best {
    at: (i32, i32),
    cost: u32,
}

impl Best {
    fn offer(&mut self, at: (i32, i32), cost: u32, later: bool) {
        if cost < self.cost || (later && cost == self.cost) {
            *self = Best { at, cost };
        }
    }
}

impl Walk<'_, '_> {
    /// The whole-sample winner for one vector.
    fn one(&mut self) -> (i32, i32) {
        let discount = if self.form == Form::NoDiscount { 0 } else { 128 };
        let mut best = Best { at: (0, 0), cost: self.sums.whole((0, 0)).saturating_sub(discount) };
        let square = -SQUARE..=SQUARE;
        for at in rectangle(square.clone(), square, self.form == Form::ColumnsFirst) {
            self.consider(at, &mut best, Form::LaterInSquare);
        }
        let window = self.place.window();
        if window == SQUARE {
            return best.at;
        }
        let mut far = best;
        self.lattice(window, &mut far);
        if far.at == best.at && self.form != Form::DenseAlways {
            return best.at;
        }
        self.dense(window, &mut far);
        far.at
    }

    fn lattice(&mut self, window: i32, best: &mut Best) {
        let earlier = i32::from(self.form == Form::LatticeShifted);
        let later = i32::from(self.form == Form::LatticeLonger);
        let span = |at: i32, side: usize| {
            let last = window.min(side as i32 - 1 - at) + later;
            ((-window).max(-at - 15) - earlier..=last).step_by(4)
        };
        let (width, height) = (self.place.reference.width(), self.place.reference.height());
        for dy in span(self.place.y, height) {
            for dx in span(self.place.x, width) {
                if dx.abs() > SQUARE || dy.abs() > SQUARE {
                    self.consider((dx, dy), best, Form::LaterOnLattice);
                }
            }
        }
    }

    fn dense(&mut self, window: i32, best: &mut Best) {
        let (first, middle) = best.at;
        let window = if self.form == Form::DenseBeyondWindow { i32::MAX } else { window };
        let mut dy = middle - 3;
        while dy <= 3 + if self.form == Form::DenseRowsAnew { best.at.1 } else { middle } {
            let centre = if self.form == Form::DenseFixedColumns { first } else { best.at.0 };
            for dx in centre - 3..=centre + 3 {
                if dx.abs() <= window && dy.abs() <= window {
                    self.consider((dx, dy), best, Form::LaterInDense);
                }
            }
            dy += 1;
        }
    }

    /// The whole-sample winner near a seed.
    fn near(&mut self, seed: (i32, i32)) -> (i32, i32) {
        let units = self.place.units();
        let down = self.form == Form::SeedDown;
        let whole = |part: i32| if down { part.div_euclid(units) } else { part / units };
        let (x, y) = (whole(seed.0), whole(seed.1));
        let zero = self.sums.whole((0, 0));
        let cost = match self.form {
            Form::DiscountInFour => zero.saturating_sub(128),
            Form::WithoutZero => u32::MAX,
            _ => zero,
        };
        let mut best = Best { at: (0, 0), cost };
        let beyond = self.form == Form::SeedBeyondWindow;
        let window = if beyond { i32::MAX } else { self.place.window() };
        let by_columns = self.form == Form::ColumnsFirst;
        for (dx, dy) in rectangle(x - 2..=x + 2, y - 2..=y + 2, by_columns) {
            if dx.abs() <= window && dy.abs() <= window {
                self.consider((dx, dy), &mut best, Form::LaterInSquare);
            }
        }
        best.at
    }

    fn consider(&mut self, at: (i32, i32), best: &mut Best, later: Form) {
        if at != (0, 0) {
            best.offer(at, self.sums.whole(at), self.form == later);
        }
    }

    /// The sub-sample list from a whole-sample winner on.
    fn refine(&mut self, full: (i32, i32)) -> (MotionVector, u32) {
        let units = self.place.units();
        let start = self.clamp((full.0 * units, full.1 * units));
        let mut best = Best { at: start, cost: self.vector_sum(start) };
        if self.form == Form::DiscountKept && full == (0, 0) {
            best.cost = best.cost.saturating_sub(128);
        }
        self.ring(units / 2, best.at, &mut best);
        if units == 4 {
            let around = self.form == Form::QuarterAroundStart;
            self.ring(1, if around { start } else { best.at }, &mut best);
        }
        (MotionVector { x: best.at.0, y: best.at.1 }, best.cost)
    }

    fn ring(&mut self, step: i32, centre: (i32, i32), best: &mut Best) {
        for (x, y) in rectangle(-1..=1, -1..=1, self.form == Form::ColumnsFirstInRing) {
            if (x, y) == (0, 0) {
                continue;
            }
            let centre = if self.form == Form::MovingCentre { best.at } else { centre };
            let at = self.clamp((centre.0 + x * step, centre.1 + y * step));
            best.offer(at, self.vector_sum(at), self.form == Form::LaterInRing);
        }
    }

    fn clamp(&self, at: (i32, i32)) -> (i32, i32) {
        let (low, high) = self.place.range();
        match self.form {
            Form::Unclamped => at,
            _ => (at.0.clamp(low, high), at.1.clamp(low, high)),
        }
    }

    fn vector_sum(&mut self, at: (i32, i32)) -> u32 {
        match self.form {
            Form::LargeCopies => self.sums.by_large_copy(at),
            _ => self.sums.vector(at),
        }
    }
}

/// The places of a rectangle, row by row or column by column.
fn rectangle(
    xs: RangeInclusive<i32>,
    ys: RangeInclusive<i32>,
    by_columns: bool,
) -> Vec<(i32, i32)> {
    let pairs = |ones: RangeInclusive<i32>, others: RangeInclusive<i32>| {
        ones.flat_map(move |one| others.clone().map(move |other| (other, one))).collect::<Vec<_>>()
    };
    if by_columns {
        return pairs(xs, ys).into_iter().map(|(y, x)| (x, y)).collect();
    }
    pairs(ys, xs)
}
