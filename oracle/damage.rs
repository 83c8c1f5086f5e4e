//! What can be wrong with a reference plane, with bits per pixel, with a source's sides, with a
//! macroblock's place and with other settings, for the groups that take them: refusals written from
//! the list and independent of the library, and random damage.

pub mod planes;

use crate::ask::{Reference, Source};
use crate::random::Random;
use std::fmt::Display;

/// Samples that damaged calls are lent parts of, which none may change. There is room for every
/// picture used here, too large ones of bad sides included.
pub struct Store {
    pub samples: Vec<u8>,
    before: Vec<u8>,
}

impl Store {
    pub fn random(random: &mut Random) -> Self {
        let mut samples = vec![0; 1 << 17];
        random.fill(&mut samples);
        Store { before: samples.clone(), samples }
    }

    pub fn unchanged(&self) -> bool {
        self.samples == self.before
    }
}

/// What is to be wrong with a call: one of the numbers alone, or several at once, so that the order
/// in which they are looked at shows. A mode that is neither is not quarter mode, so of 2 and 3 only
/// one can be.
pub fn choose(numbers: &[u8], random: &mut Random) -> Vec<u8> {
    let always = random.pick(numbers);
    let other = if always == 3 || (always != 2 && random.chance(50)) { 2 } else { 3 };
    let share = random.pick(&[0, 10, 40]);
    let mut chosen = numbers.to_vec();
    chosen.retain(|&n| n == always || (n != other && random.chance(share)));
    chosen
}

/// Calls made by hand, each with its name and the reply. The replies are held to the reasons that
/// are worked out, and the library to both. The count of calls.
pub fn by_hand<C: Display>(
    cases: impl Iterator<Item = (&'static str, u8, C)>,
    reasons: impl Fn(&C) -> Vec<u8>,
    check: impl Fn(&C, u8) -> Result<(), String>,
) -> Result<usize, String> {
    let mut count = 0;
    for (name, reply, call) in cases {
        let first = reasons(&call).first().copied().unwrap_or(0);
        if first != reply {
            return Err(format!("{name}: listed as {reply}, worked out as {first}\n{call}"));
        }
        check(&call, reply).map_err(|text| format!("{name}\n{text}"))?;
        count += 1;
    }
    Ok(count)
}

pub fn bad_geometry(r: &Reference) -> bool {
    let side = 1..=4096;
    !side.contains(&r.width) || !side.contains(&r.height) || !(r.width..=8192).contains(&r.stride)
}

/// (height - 1) * stride + width - 1, without wrap-around. Sides of 0 are a bad geometry, which is
/// looked at before; they count as 1 here.
pub fn last_sample(r: &Reference) -> u128 {
    let above = r.height.saturating_sub(1) as u128 * r.stride as u128;
    above + r.width.saturating_sub(1) as u128
}

/// A number that passes for `low` when its high half is lost.
pub fn beyond_32_bits(low: usize) -> usize {
    (1 << 32) + low
}

/// Bits per pixel outside 1..8.
pub fn bits(random: &mut Random) -> u32 {
    let any = 9 + (random.bits() >> 34) as u32;
    random.pick(&[0, 0, 9, 9, 10, 16, 31, 32, 33, 256 + 8, 1 << 31, u32::MAX, any])
}

/// Sides or a stride outside their bounds.
pub fn geometry(r: &mut Reference, random: &mut Random) {
    let huge = random.pick(&[usize::MAX, 1 << 63, 1 << 31]);
    match random.size(0, 9) {
        0 => r.width = 0,
        1 => r.height = 0,
        2 => (r.width, r.height) = (0, 0),
        3 => r.stride = random.size(0, r.width - 1),
        4 => {
            r.width = random.size(4097, 4200);
            r.stride = r.width + random.size(0, 50);
            r.height = random.size(1, 20);
        }
        5 => (r.width, r.height, r.stride) = (1, random.size(4097, 4200), random.size(1, 20)),
        6 => (r.height, r.stride) = (random.size(1, 10), random.size(8193, 9000)),
        7 => (r.height, r.stride) = (1, huge),
        8 => (r.width, r.stride) = (beyond_32_bits(r.width), beyond_32_bits(r.stride)),
        _ => r.height = random.pick(&[huge, beyond_32_bits(r.height)]),
    }
}

/// A length of at most `most`: none, any, or one too few.
pub fn too_short(most: u128, len: usize, random: &mut Random) -> usize {
    let most = most.min(len as u128) as usize;
    match random.size(0, 2) {
        0 => 0,
        1 => random.size(0, most),
        _ => most,
    }
}

/// Too few samples, by one or by more.
pub fn cut(r: &mut Reference, random: &mut Random) {
    let len = too_short(last_sample(r), r.samples.len(), random);
    r.samples = &r.samples[..len];
}

pub fn bad_sides(source: &Source) -> bool {
    let side = 1..=4096;
    !side.contains(&source.width) || !side.contains(&source.height)
}

/// How many samples a source has, exactly.
pub fn places(width: usize, height: usize) -> u128 {
    width as u128 * height as u128
}

pub fn beyond(source: &Source, column: usize, row: usize) -> bool {
    column >= source.width.div_ceil(16) || row >= source.height.div_ceil(16)
}

/// A side of 0 or above 4,096.
pub fn sides(source: &mut Source, random: &mut Random) {
    let huge = random.pick(&[usize::MAX, 1 << 63, 1 << 31, usize::MAX - 15]);
    match random.size(0, 6) {
        0 => source.width = 0,
        1 => source.height = 0,
        2 => (source.width, source.height) = (4097, random.size(1, 20)),
        3 => (source.width, source.height) = (random.size(1, 20), 4097),
        4 => source.width = random.pick(&[huge, beyond_32_bits(source.width)]),
        5 => source.height = random.pick(&[huge, beyond_32_bits(source.height)]),
        // The product wraps around to 0.
        _ => (source.width, source.height) = (1 << 32, 1 << 32),
    }
}

/// Fewer source samples than places, if there are places.
pub fn shorten(source: &mut Source, random: &mut Random) {
    if source.width == 0 || source.height == 0 {
        (source.width, source.height) = (4097, 16);
    }
    let most = places(source.width, source.height) - 1;
    let len = too_short(most, source.samples.len(), random);
    source.samples = &source.samples[..len];
}

/// A column or a row, or both, beyond the source.
pub fn place(source: &Source, column: &mut usize, row: &mut usize, random: &mut Random) {
    let far = random.pick(&[usize::MAX, 1 << 63, 1 << 60, 4096, beyond_32_bits(0)]);
    let which = random.size(1, 3);
    for (number, side, part) in [(column, source.width, 1), (row, source.height, 2)] {
        if which & part != 0 {
            let first = side.div_ceil(16);
            *number = random.pick(&[first, first, first.saturating_add(1), far.max(first)]);
        }
    }
}

/// An fcode outside 1..7.
pub fn fcode(random: &mut Random) -> u32 {
    random.pick(&[0, 0, 8, 8, 9, 33, 256 + 1, 1 << 31, u32::MAX])
}

/// A mode that is neither half nor quarter.
pub fn mode(random: &mut Random) -> u32 {
    random.pick(&[2, 2, 3, 255, 256, 257, 1 << 31, u32::MAX])
}

/// A quantiser outside 1..31.
pub fn quantiser(random: &mut Random) -> u32 {
    random.pick(&[0, 0, 32, 33, 255, 256 + 5, 1 << 31, u32::MAX])
}

/// A rounding type above 1.
pub fn rounding(random: &mut Random) -> u8 {
    let any = random.byte().max(2);
    random.pick(&[2, 2, 3, 128, 254, 255, any])
}

/// A scan that is none of the three.
pub fn scan(random: &mut Random) -> u32 {
    random.pick(&[3, 4, 255, 256, 256 + 2, 1 << 31, u32::MAX])
}
