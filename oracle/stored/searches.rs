//! Calls of the searches: every fcode in both modes on ten kinds of pictures, ties, the discount and
//! the lattice among them; sources and references of other sizes than each other, far vectors along
//! one row or one column.

use super::call::Call;
use super::planes::rows;
use crate::contents::{pair, Kind, KINDS};
use crate::random::Random;

/// Sides of a source and its reference.
const SIDES: [[(usize, usize); 2]; 9] = [
    [(3, 2), (2, 2)],
    [(20, 18), (20, 18)],
    [(300, 1), (310, 1)],
    [(17, 9), (34, 26)],
    [(1, 270), (1, 280)],
    [(33, 5), (12, 4)],
    [(16, 16), (29, 31)],
    [(24, 24), (24, 24)],
    [(190, 2), (180, 2)],
];

/// A source with a reference, by the names that an entry has for the source's plane.
pub struct Scene {
    pub source: Vec<u8>,
    pub size: (usize, usize),
    pub motion: (i32, i32),
    reference: Vec<u8>,
    ref_size: (usize, usize),
    stride: usize,
}

impl Scene {
    pub fn random(turn: usize, random: &mut Random) -> Scene {
        let kind = KINDS[turn / 2 % KINDS.len()];
        // The valley has to lie inside the reference.
        let [size, ref_size] = match kind {
            Kind::Valley => [(34, 34), (36, 34)],
            _ => SIDES[turn % SIDES.len()],
        };
        let reach = random.pick(&[1, 3, 8, 9, 12, 18]);
        let far = |side: usize, random: &mut Random| match side > 100 {
            true => random.int(-200, 200),
            false => random.int(-reach, reach),
        };
        let motion = (far(size.0, random), far(size.1, random));
        let pair = pair(kind, motion, random);
        let less = if random.chance(30) { random.size(0, 7) } else { 0 };
        let stride = ref_size.0 + if turn % 5 == 2 { random.size(1, 5) } else { 0 };
        let source = rows(size, size.0, turn % 2, random, |x, y| (pair.source)(x, y) >> less);
        let at = |x, y| (pair.reference)(x, y) >> less;
        let reference = rows(ref_size, stride, turn % 3, random, at);
        Scene { source, size, motion: pair.motion, reference, ref_size, stride }
    }

    /// The last column or row, or any.
    pub fn place(&self, random: &mut Random) -> (usize, usize) {
        let mut at = |side: usize| {
            let last = side.div_ceil(16) - 1;
            let any = random.size(0, last);
            random.pick(&[any, last])
        };
        (at(self.size.0), at(self.size.1))
    }

    /// The call with this reference, in either mode, for an fcode by its turn.
    pub fn searched(&self, c: Call, turn: usize, random: &mut Random) -> Call {
        let mode = turn / 7 % 2;
        let bits = if mode == 1 { random.pick(&[8, 8, 8, 1, 2, 3, 4, 5, 6, 7]) } else { turn % 10 };
        c.reads("reference", &self.reference)
            .size("ref_width", self.ref_size.0)
            .size("ref_height", self.ref_size.1)
            .size("stride", self.stride)
            .set("mode", mode as u32)
            .set("bits_per_pixel", bits as u32)
            .set("fcode", turn as u32 % 7 + 1)
    }
}

pub fn sized(c: Call, (width, height): (usize, usize), (column, row): (usize, usize)) -> Call {
    c.size("width", width).size("height", height).size("column", column).size("row", row)
}

pub fn one() -> Vec<Call> {
    let mut random = Random::new(20);
    let one = |turn: usize| {
        let scene = Scene::random(turn, &mut random);
        let c = scene.searched(Call::of("estimate_motion"), turn, &mut random);
        let c = sized(c, scene.size, scene.place(&mut random)).reads("source", &scene.source);
        c.lent("vector", 2).lent("sum", 1)
    };
    (0..98).map(one).collect()
}

/// Seeds at the motion, near zero, at either end of the range and anywhere in it.
fn seed(c: Call, motion: (i32, i32), random: &mut Random) -> Call {
    let range = 32 << (c.number("fcode") - 1);
    let units = if c.number("mode") == 1 { 4 } else { 2 };
    let mut part = |motion: i32| {
        let moved = motion * units + random.int(-2, 2);
        let any = random.int(-range, range - 1);
        random.pick(&[moved, moved, any, random_end(range, any), any % 4]).clamp(-range, range - 1)
    };
    let (x, y) = (part(motion.0), part(motion.1));
    c.set("seed_x", x).set("seed_y", y)
}

fn random_end(range: i32, any: i32) -> i32 {
    if any < 0 {
        -range
    } else {
        range - 1
    }
}

pub fn four() -> Vec<Call> {
    let mut random = Random::new(21);
    let one = |turn: usize| {
        let scene = Scene::random(turn + turn / 18, &mut random);
        let c = scene.searched(Call::of("estimate_motion_4mv"), turn, &mut random);
        let c = sized(c, scene.size, scene.place(&mut random)).reads("source", &scene.source);
        seed(c, scene.motion, &mut random).lent("vectors", 8).lent("sums", 4)
    };
    (0..84).map(one).collect()
}
