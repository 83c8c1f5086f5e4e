//! The candidate lists, written out entry by entry. The best so far is the first of least
//! cost listed before; for a ring or a row, before its first entry.

/// Half the side of the square that is listed sample by sample.
const SQUARE: i32 = 8;

/// What the zero of the full-sample list for one vector costs less.
const DISCOUNT: u32 = 128;

/// A place in samples, or a vector.
pub type At = (i32, i32);

#[derive(Default)]
pub struct List {
    pub entries: Vec<(At, u32)>,
}

impl List {
    /// The place of the first entry of least cost.
    pub fn winner(&self) -> usize {
        let least = self.entries.iter().map(|entry| entry.1).min().expect("a list has an entry");
        self.entries.iter().position(|entry| entry.1 == least).expect("the least is there")
    }

    pub fn best(&self) -> At {
        self.entries[self.winner()].0
    }
}

/// What the lists depend on, beside costs.
pub struct Bounds {
    pub fcode: u32,
    /// A vector's units in one sample: 2 or 4.
    pub units: i32,
    /// The place of the macroblock's first sample.
    pub x: i32,
    pub y: i32,
    /// The reference's sides.
    pub width: i32,
    pub height: i32,
}

impl Bounds {
    /// A vector's least and greatest part.
    pub fn range(&self) -> (i32, i32) {
        let f = 1 << (self.fcode - 1);
        (-32 * f, 32 * f - 1)
    }

    /// How far a full-sample place may lie away.
    fn window(&self) -> i32 {
        match self.fcode {
            1 => SQUARE,
            _ => ((self.range().1 + 1) / self.units - 1).max(SQUARE),
        }
    }

    /// The full-sample list for one vector; `cost` is a place's sum.
    pub fn full(&self, mut cost: impl FnMut(At) -> u32) -> List {
        let mut list = List::default();
        list.entries.push(((0, 0), cost((0, 0)).saturating_sub(DISCOUNT)));
        let mut push = |list: &mut List, at: At| {
            if at != (0, 0) {
                list.entries.push((at, cost(at)));
            }
        };
        for dy in -SQUARE..=SQUARE {
            for dx in -SQUARE..=SQUARE {
                push(&mut list, (dx, dy));
            }
        }
        if self.fcode == 1 {
            return list;
        }
        let square = list.entries.len();
        let window = self.window();
        let span =
            |at: i32, side: i32| ((-window).max(-at - 15)..=window.min(side - 1 - at)).step_by(4);
        for dy in span(self.y, self.height) {
            for dx in span(self.x, self.width) {
                if dx.abs() > SQUARE || dy.abs() > SQUARE {
                    push(&mut list, (dx, dy));
                }
            }
        }
        if list.winner() < square {
            return list;
        }
        let middle = list.best().1;
        for dy in middle - 3..=middle + 3 {
            let centre = list.best().0;
            for dx in centre - 3..=centre + 3 {
                if dx.abs() <= window && dy.abs() <= window {
                    push(&mut list, (dx, dy));
                }
            }
        }
        list
    }

    /// The full-sample list for one of four, around a seed.
    pub fn seeded(&self, seed: At, mut cost: impl FnMut(At) -> u32) -> List {
        let mut list = List::default();
        list.entries.push(((0, 0), cost((0, 0))));
        let (x, y) = (seed.0 / self.units, seed.1 / self.units);
        let window = self.window();
        for dy in y - 2..=y + 2 {
            for dx in x - 2..=x + 2 {
                if dx.abs() <= window && dy.abs() <= window {
                    list.entries.push(((dx, dy), cost((dx, dy))));
                }
            }
        }
        list
    }

    /// The sub-sample list from a full-sample winner on; `sum` is a vector's.
    pub fn sub(&self, winner: At, mut sum: impl FnMut(At) -> u32) -> List {
        let (low, high) = self.range();
        let clamped = |at: At| (at.0.clamp(low, high), at.1.clamp(low, high));
        let start = clamped((winner.0 * self.units, winner.1 * self.units));
        let mut list = List { entries: vec![(start, sum(start))] };
        let steps: &[i32] = if self.units == 4 { &[2, 1] } else { &[1] };
        for step in steps {
            let (x, y) = list.best();
            for (dx, dy) in RING {
                let at = clamped((x + step * dx, y + step * dy));
                list.entries.push((at, sum(at)));
            }
        }
        list
    }
}

/// Eight neighbours, row by row.
const RING: [At; 8] = [(-1, -1), (0, -1), (1, -1), (-1, 0), (1, 0), (-1, 1), (0, 1), (1, 1)];
