//! Wrong rules of the chroma vector that come near the right one. For each it is counted how many
//! valid calls tell it from the right one, so that a library which had it would be noticed.

use super::Count;
use crate::bvop_prediction::BVopSampleMode;
use crate::motion::MotionVector;
use crate::pvop_mv::PvopMbMotion;

/// A part, horizontal or vertical, of one vector's or of four; whether in quarter samples.
pub type Rule = fn(bool, &[i32]) -> i32;

const ONE: [(&str, Rule); 4] = [
    ("halved down", |quarter, parts| one(parts[0] >> u32::from(quarter))),
    ("fraction 1 as nothing", |quarter, parts| {
        let part = halved(quarter, parts[0]);
        one(part) - i32::from(part.rem_euclid(4) == 1)
    }),
    ("fraction 3 as a whole", |quarter, parts| {
        let part = halved(quarter, parts[0]);
        one(part) + i32::from(part.rem_euclid(4) == 3)
    }),
    ("whole samples toward zero", |quarter, parts| {
        let part = halved(quarter, parts[0]);
        2 * (part / 4) + i32::from(part % 4 != 0)
    }),
];

const FOUR: [(&str, Rule); 6] = [
    ("halved down", |quarter, parts| {
        rounded(parts.iter().map(|part| part >> u32::from(quarter)).sum(), 2, 13)
    }),
    ("the sum halved", |quarter, parts| rounded(halved(quarter, parts.iter().sum()), 2, 13)),
    ("remainders 2 and 3 exchanged", |quarter, parts| {
        let sum = sum(quarter, parts);
        let more = match sum.abs() % 16 {
            2 => 1,
            3 => -1,
            _ => 0,
        };
        rounded(sum, 2, 13) + more * sum.signum()
    }),
    ("remainder 14 as a half", |quarter, parts| rounded(sum(quarter, parts), 2, 14)),
    ("remainder 13 as a whole", |quarter, parts| rounded(sum(quarter, parts), 2, 12)),
    // A quotient rounded down would give the same for every sum: a remainder that adds nothing and
    // one that adds a whole make 16.
    ("the sign before a division toward zero", |quarter, parts| {
        let sum = sum(quarter, parts);
        2 * (sum / 16) + rounded((sum % 16).max(0), 2, 13)
    }),
];

fn halved(quarter: bool, part: i32) -> i32 {
    if quarter {
        part / 2
    } else {
        part
    }
}

fn one(part: i32) -> i32 {
    2 * part.div_euclid(4) + i32::from(part.rem_euclid(4) != 0)
}

fn sum(quarter: bool, parts: &[i32]) -> i32 {
    parts.iter().map(|&part| halved(quarter, part)).sum()
}

/// The remainders that add nothing and those that add a half end with these.
fn rounded(sum: i32, nothing: i32, half: i32) -> i32 {
    let rest = sum.abs() % 16;
    let added = i32::from(rest > nothing) + i32::from(rest > half);
    sum.signum() * (sum.abs() / 16 * 2 + added)
}

pub fn wrong(count: Count) -> &'static [(&'static str, Rule)] {
    match count {
        Count::One => &ONE,
        Count::Four => &FOUR,
    }
}

/// The chroma vector by a rule.
pub fn vector(rule: Rule, mode: BVopSampleMode, motion: PvopMbMotion) -> MotionVector {
    let quarter = mode != BVopSampleMode::HalfPel;
    let vectors = match motion {
        PvopMbMotion::OneMv(vector) => vec![vector],
        PvopMbMotion::FourMv(vectors) => vectors.to_vec(),
    };
    let part =
        |of: fn(&MotionVector) -> i32| rule(quarter, &vectors.iter().map(of).collect::<Vec<i32>>());
    MotionVector { x: part(|v| v.x), y: part(|v| v.y) }
}
