//! The chroma vector of one vector, against the original's `reduce_qpel_to_half_pel_chroma` at every
//! component in either mode, and that of four, against the rule as `predicted` has it, at every sum.

use super::{bad_parts, beyond_limits, generator, rules, Count};
use crate::bvop_prediction::BVopSampleMode;
use crate::counted::{strings, Counted, Mark};
use crate::damage;
use crate::guard::{held, Lent};
use crate::motion::MotionVector;
use crate::options::Options;
use crate::predicted::chroma_vector;
use crate::pvop_mv::PvopMbMotion;
use crate::random::Random;
use crate::summary::Row;
use crate::tally::Tally;
use hencouch::raw;

const NUMBERS: &[u8] = &[2, 8];
const PARTS: &str = "mode, sign and what is left over whole samples";
const TOLD_FROM: &str = "told from";

/// Of one vector the first two parts count.
#[derive(Clone, Copy, Debug)]
struct Call {
    count: Count,
    mode: u32,
    parts: [i32; 8],
}

impl Call {
    /// All reasons to turn the call back, in order.
    fn reasons(&self) -> Vec<u8> {
        let far = bad_parts(&self.parts[..self.count.parts()]);
        let all = [(2, self.mode > 1), (8, far)];
        all.iter().filter(|reason| reason.1).map(|reason| reason.0).collect()
    }

    fn motion(&self) -> PvopMbMotion {
        self.count.motion(&self.parts)
    }

    fn sample_mode(&self) -> BVopSampleMode {
        BVopSampleMode::of(self.mode, 8)
    }

    /// Holds the library to `reply`; the vector, for a call with nothing wrong.
    fn check(&self, reply: u8, salt: u8) -> Result<MotionVector, String> {
        let mut lent = Lent::<i32>::new(2, salt);
        let out = lent.area().try_into().expect("an area of 2");
        let handed = self.parts;
        let got = match self.count {
            Count::One => raw::chroma_vector(self.mode, handed[0], handed[1], out),
            Count::Four => raw::chroma_vector_4mv(self.mode, &handed, out),
        };
        let wanted = match reply {
            0 => chroma_vector(self.sample_mode(), self.motion()),
            _ => MotionVector { x: 0, y: 0 },
        };
        let same = handed == self.parts;
        let same = same.then_some(()).ok_or("the vectors were changed".to_string());
        held(&lent, got, reply, &[wanted.x, wanted.y])
            .and(same)
            .map_err(|text| format!("MISMATCH: {text}\n{self:?}"))?;
        Ok(wanted)
    }
}

pub fn compare(count: Count, options: &Options) -> Row {
    let name = match count {
        Count::One => "chroma_vector",
        Count::Four => "chroma_vector_4mv",
    };
    let mut row = Row::new(name);
    row.listed(worked(count));
    let mut every = every(count);
    row.listed(every.try_fold(0, |cases, call| call.check(0, 0xA5).map(|_| cases + 1)));
    let mut random = generator(options, count, 0);
    let mut counted = Counted::new(name, all_marks(count));
    for _ in 0..options.valid {
        let call = valid(count, &mut random);
        if let Some(vector) = row.valid(call.check(0, random.byte())) {
            counted.count(marks_of(&call, vector));
        }
    }
    row.covered(counted.finish());
    Tally::new(name, NUMBERS).run(&mut row, options.refused, || {
        let call = damaged(count, &mut random);
        let reasons = call.reasons();
        let found = call.check(reasons[0], random.byte());
        (reasons, found)
    });
    row
}

/// Mode, a part of each vector, and the chroma vector's part, written here and not worked out.
type Worked = (u32, [i32; 4], i32);

const ONE: &[Worked] = &[
    (0, [0; 4], 0),
    (0, [1, 0, 0, 0], 1),
    (0, [2, 0, 0, 0], 1),
    (0, [3, 0, 0, 0], 1),
    (0, [4, 0, 0, 0], 2),
    (0, [5, 0, 0, 0], 3),
    (0, [-1, 0, 0, 0], -1),
    (0, [-2, 0, 0, 0], -1),
    (0, [-3, 0, 0, 0], -1),
    (0, [-4, 0, 0, 0], -2),
    (0, [-5, 0, 0, 0], -3),
    (1, [1, 0, 0, 0], 0),
    (1, [-1, 0, 0, 0], 0),
    (1, [-3, 0, 0, 0], -1),
    (1, [-9, 0, 0, 0], -2),
];

/// Sums 2, 3, 13, 14, 15, 16 and their negatives; and, in quarter samples, each halved and not the
/// sum: (-1, -1, 0, 0) adds to 0, and of (-3, -3, 0, 0) the sum halved would give -1.
const FOUR: &[Worked] = &[
    (0, [1, 1, 0, 0], 0),
    (0, [1, 1, 1, 0], 1),
    (0, [4, 3, 3, 3], 1),
    (0, [4, 4, 3, 3], 2),
    (0, [4, 4, 4, 3], 2),
    (0, [4, 4, 4, 4], 2),
    (0, [-1, -1, 0, 0], 0),
    (0, [-1, -1, -1, 0], -1),
    (0, [-4, -3, -3, -3], -1),
    (0, [-4, -4, -3, -3], -2),
    (0, [-4, -4, -4, -3], -2),
    (0, [-4, -4, -4, -4], -2),
    (0, [-3, -3, 0, 0], -1),
    (1, [-1, -1, 0, 0], 0),
    (1, [-3, -3, 0, 0], 0),
    (1, [3, 3, 3, 0], 1),
];

/// Each row horizontally, and the one after it vertically.
fn worked(count: Count) -> Result<usize, String> {
    let rows = if count == Count::One { ONE } else { FOUR };
    for mode in [0, 1] {
        let of_mode: Vec<&Worked> = rows.iter().filter(|row| row.0 == mode).collect();
        for (k, across) in of_mode.iter().enumerate() {
            let down = of_mode[(k + 1) % of_mode.len()];
            let parts = std::array::from_fn(|i| if i % 2 == 0 { across } else { down }.1[i / 2]);
            let call = Call { count, mode, parts };
            let vector = call.check(0, 0xA5)?;
            if (vector.x, vector.y) != (across.2, down.2) {
                return Err(format!("{call:?}: {vector:?}, listed as {}, {}", across.2, down.2));
            }
        }
    }
    Ok(rows.len())
}

/// Every component of one vector, every sum of four, in either mode; in quarter samples whole halves
/// and a quarter more.
fn every(count: Count) -> impl Iterator<Item = Call> {
    let calls = move |mode: u32, odd: bool| {
        let (low, high) = match (count, mode) {
            (Count::One, _) => (-2048, 2047),
            (Count::Four, 0) => (-8192, 8188),
            (Count::Four, _) => (-4096, 4092),
        };
        (low..=high).map(move |sum| {
            let part = |sum: i32, b: usize| match count {
                Count::One => sum,
                Count::Four => quarters(mode, odd, share(sum, b)),
            };
            let of = |i: usize| part([sum, low + high - sum][i % 2], i / 2);
            Call { count, mode, parts: std::array::from_fn(of) }
        })
    };
    let manners: &[(u32, bool)] = match count {
        Count::One => &[(0, false), (1, false)],
        Count::Four => &[(0, false), (1, false), (1, true)],
    };
    manners.iter().flat_map(move |&(mode, odd)| calls(mode, odd))
}

/// One of four whole numbers that add to a sum and are nearly alike.
fn share(sum: i32, b: usize) -> i32 {
    sum.div_euclid(4) + i32::from((b as i32) < sum.rem_euclid(4))
}

/// A part that is so many halves, toward zero, and a quarter more if that can be.
fn quarters(mode: u32, odd: bool, halves: i32) -> i32 {
    let more = if halves < 0 { -1 } else { 1 };
    match mode {
        0 => halves,
        _ => (2 * halves + more * i32::from(odd)).max(-2048),
    }
}

fn valid(count: Count, random: &mut Random) -> Call {
    let reach = random.pick(&[1, 5, 20, 300, 2048]);
    let near = random.pick(&[0, 0, 1, 3, 2048]);
    let middle = [0, 1].map(|_| random.int(-reach, reach));
    let part = |i: usize| (middle[i % 2] + random.int(-near, near)).clamp(-2048, 2047);
    let parts = [0, 1, 2, 3, 4, 5, 6, 7].map(part);
    Call { count, mode: random.size(0, 1) as u32, parts }
}

fn damaged(count: Count, random: &mut Random) -> Call {
    let mut call = valid(count, random);
    for number in damage::choose(NUMBERS, random) {
        match number {
            2 => call.mode = damage::mode(random),
            _ => beyond_limits(&mut call.parts[..count.parts()], random),
        }
    }
    call
}

/// Of one vector the fraction is in quarters, of four in sixteenths.
fn left_over(call: &Call, axis: usize) -> String {
    let halved = |part: &i32| if call.mode == 1 { part / 2 } else { *part };
    let own = &call.parts[..call.count.parts()];
    let sum: i32 = own.iter().skip(axis).step_by(2).map(halved).sum();
    let sign = if sum < 0 { "-" } else { "+" };
    let left = match call.count {
        Count::One => sum.rem_euclid(4),
        Count::Four => sum.abs() % 16,
    };
    format!("{} {sign}{left}", call.mode)
}

fn all_marks(count: Count) -> Vec<(&'static str, Vec<String>)> {
    let most = if count == Count::One { 4 } else { 16 };
    let signs = ["0 +", "0 -", "1 +", "1 -"];
    let parts = signs.iter().flat_map(|sign| (0..most).map(move |left| format!("{sign}{left}")));
    let rules: Vec<&str> = rules::wrong(count).iter().map(|rule| rule.0).collect();
    vec![(PARTS, parts.collect()), (TOLD_FROM, strings(&rules))]
}

fn marks_of(call: &Call, vector: MotionVector) -> Vec<Mark> {
    let mut all = vec![(PARTS, left_over(call, 0)), (PARTS, left_over(call, 1))];
    for &(name, rule) in rules::wrong(call.count) {
        if rules::vector(rule, call.sample_mode(), call.motion()) != vector {
            all.push((TOLD_FROM, name.to_string()));
        }
    }
    all
}
