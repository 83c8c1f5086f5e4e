//! Calls for one macroblock: source blocks, activity, residual, events, patterns, and the entry that
//! searches and codes.

use super::call::Call;
use super::levels::{residuals as residual, weights};
use super::planes::{chroma_sides, rows, sample, with_chroma, SHOWN};
use super::searches::{sized, Scene};
use crate::random::Random;

/// Sides that are and are not multiples of 16, and of 2.
const SIDES: [(usize, usize); 9] =
    [(3, 2), (16, 16), (17, 5), (1, 1), (33, 7), (15, 18), (32, 3), (2, 21), (31, 9)];

fn plane((width, height): (usize, usize), turn: usize, random: &mut Random) -> Vec<u8> {
    let (shown, salt) = (SHOWN[turn % SHOWN.len()], random.bits());
    rows((width, height), width, turn % 3 / 2, random, |x, y| sample(shown, salt, x, y))
}

/// The last macroblock, the first, or one between.
fn place((width, height): (usize, usize), random: &mut Random) -> (usize, usize) {
    let (columns, rows) = (width.div_ceil(16), height.div_ceil(16));
    let (column, row) = (random.size(0, columns - 1), random.size(0, rows - 1));
    random.pick(&[(columns - 1, rows - 1), (column, row)])
}

pub fn source_blocks(name: &str) -> Vec<Call> {
    let luma = name == "source_luma_block";
    let mut random = Random::new(30 + u64::from(luma));
    let one = |turn: usize| {
        let sides = SIDES[turn % SIDES.len()];
        let c = Call::of(if luma { "source_luma_block" } else { "source_chroma_block" });
        let c = sized(c, sides, place(sides, &mut random));
        match luma {
            true => c.reads("y", &plane(sides, turn, &mut random)).lent("out", 256),
            false => {
                c.reads("chroma", &plane(chroma_sides(sides), turn, &mut random)).lent("out", 64)
            }
        }
    };
    (0..36).map(one).collect()
}

/// Plain planes, one sample among zeros, and means with a fraction.
pub fn activities() -> Vec<Call> {
    let mut random = Random::new(32);
    let one = |turn: usize| {
        let sides = SIDES[turn % SIDES.len()];
        let mut source = plane(sides, turn, &mut random);
        match turn % 4 {
            1 => source.fill(random.byte()),
            2 => {
                source.fill(0);
                let at = random.size(0, source.len() - 1);
                source[at] = random.pick(&[255, 1, 128]);
            }
            _ => {}
        }
        let c = sized(Call::of("intra_activity"), sides, place(sides, &mut random));
        c.reads("source", &source)
    };
    (0..45).map(one).collect()
}

/// The source's planes and a lent prediction: near the source, of noise, or at the other end.
fn predicted(c: Call, y: &[u8], sides: (usize, usize), turn: usize, random: &mut Random) -> Call {
    let small = chroma_sides(sides);
    let (cb, cr) = (plane(small, turn, random), plane(small, turn + 1, random));
    let near = |from: &[u8], len: usize, random: &mut Random| -> Vec<u8> {
        let shade = from[from.len() / 2];
        let any = |_| match turn % 5 {
            0 => shade.saturating_add(random.byte() % 8),
            1 => random.byte(),
            2 => 255 * u8::from(shade < 128),
            3 => shade.saturating_sub(random.byte() % 40),
            _ => shade,
        };
        (0..len).map(any).collect()
    };
    c.reads("pred_y", &near(y, 256, random))
        .reads("pred_cb", &near(&cb, 64, random))
        .reads("pred_cr", &near(&cr, 64, random))
        .reads("y", y)
        .reads("cb", &cb)
        .reads("cr", &cr)
}

pub fn residuals() -> Vec<Call> {
    let mut random = Random::new(33);
    let one = |turn: usize| {
        let sides = SIDES[turn % SIDES.len()];
        let y = plane(sides, turn / 2, &mut random);
        let c = sized(Call::of("macroblock_residual"), sides, place(sides, &mut random));
        predicted(c, &y, sides, turn, &mut random).lent("out", 384)
    };
    (0..14).map(one).collect()
}

/// Either method, every quantiser in turn, each scan. The second method takes zero weights.
fn quantising(c: Call, turn: usize, random: &mut Random) -> Call {
    let first = if turn / 3 % 2 == 0 { 0 } else { random.pick(&[1, 1, 3, 255]) };
    let mut matrix = weights(turn, random);
    matrix[turn % 64] *= u8::from(first != 0);
    let q = random.int(1, 31) as u32;
    let q = [q, 1, q, 2, 31, q][turn % 6];
    c.set("quantiser", q)
        .set("first_method", first)
        .set("scan", turn as u32 % 3)
        .reads("weights", &matrix)
}

fn lent_events(c: Call, len: usize) -> Call {
    c.lent("lasts", len).lent("runs", len).lent("levels", len)
}

pub fn coded_blocks() -> Vec<Call> {
    let mut random = Random::new(34);
    let one = |turn: usize| {
        let c = quantising(Call::of("quantise_inter_block"), turn, &mut random);
        lent_events(c.reads("residual", &residual(turn + turn / 12, &mut random)), 64)
    };
    (0..54).map(one).collect()
}

pub fn coded_residuals() -> Vec<Call> {
    let mut random = Random::new(35);
    let one = |turn: usize| {
        let c = quantising(Call::of("quantise_inter_residual"), turn, &mut random);
        let six: Vec<i32> = (0..6).flat_map(|b| residual(5 * turn + b, &mut random)).collect();
        lent_events(c.reads("residual", &six), 384)
    };
    (0..9).map(one).collect()
}

/// Every set of blocks that have events.
pub fn patterns() -> Vec<Call> {
    let mut random = Random::new(36);
    let one = |set: usize| {
        let counts: Vec<u8> =
            (0..6).map(|b| (set >> b & 1) as u8 * random.pick(&[1, 2, 64, 128, 255])).collect();
        Call::of("inter_cbp").reads("counts", &counts)
    };
    (0..64).map(one).collect()
}

/// A call of an entry that searches and codes, or of a step, which has no place of its own.
pub fn coding(entry: &'static str, turn: usize, random: &mut Random) -> (Call, (usize, usize)) {
    let scene = Scene::random(turn, random);
    let c = quantising(scene.searched(Call::of(entry), turn, random), turn, random);
    let c = predicted(c, &scene.source, scene.size, turn, random);
    let (width, height) = scene.size;
    let c = c.set("vectors", [4, 1, 4][turn % 3] as u32).size("width", width).size("height", height);
    let c = if entry.contains("predicted") { made_here(c, turn, random) } else { c };
    (lent_events(c, 384), scene.place(random))
}

/// The same call of an entry that makes its prediction: instead of what is lent it has the reference's
/// chroma planes and a rounding type.
fn made_here(mut c: Call, turn: usize, random: &mut Random) -> Call {
    c.areas.retain(|name, _| !name.starts_with("pred_"));
    let luma = c.areas.remove("reference").expect("a reference");
    let sides = (c.number("ref_width") as usize, c.number("ref_height") as usize);
    with_chroma(c.reads("ref_y", &luma), sides, turn, random).set("rounding", turn as u8 % 2)
}

pub fn coded() -> Vec<Call> {
    placed("code_macroblock", 21, Random::new(37))
}

pub fn coded_predicted() -> Vec<Call> {
    placed("code_predicted_macroblock", 14, Random::new(38))
}

/// So many calls at a macroblock's place.
fn placed(entry: &'static str, count: usize, mut random: Random) -> Vec<Call> {
    let one = |turn: usize| {
        let (c, (column, row)) = coding(entry, turn, &mut random);
        c.size("column", column).size("row", row)
    };
    (0..count).map(one).collect()
}
