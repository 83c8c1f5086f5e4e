//! Random calls with something wrong: one thing alone, or several at once, so that the order in
//! which the refusals are looked at shows.

use super::call::{Call, Function};
use super::refusal;
use crate::ask::{Block, Reference};
use crate::damage::{beyond_32_bits, bits, cut, geometry};
use crate::random::Random;

/// The longest output area lent here.
const LONGEST: usize = 1024;

pub fn call<'a>(function: Function, store: &'a [u8], random: &mut Random) -> Call<'a> {
    let mut call = sound(function, store, random);
    for number in choose(function, random) {
        spoil(&mut call, number, random);
    }
    call
}

/// Gives a call this reason. The length depends on the sides, so theirs is to be given before.
pub fn spoil(call: &mut Call, number: u8, random: &mut Random) {
    match number {
        3 => call.bits_per_pixel = bits(random),
        4 => geometry(&mut call.reference, random),
        5 => cut(&mut call.reference, random),
        8 => place(&mut call.block, random),
        14 => sides(call, random),
        _ => length(call, random),
    }
}

/// A call with nothing wrong. Its samples are the whole store, longer than needed.
pub fn sound<'a>(function: Function, store: &'a [u8], random: &mut Random) -> Call<'a> {
    let (width, height) = (random.size(1, 40), random.size(1, 40));
    let reference = Reference { samples: store, width, height, stride: width + random.size(0, 5) };
    let block = Block {
        mv_x: random.int(-2048, 2047),
        mv_y: random.int(-2048, 2047),
        origin_x: random.int(-4096, 4096),
        origin_y: random.int(-4096, 4096),
        block_w: random.pick(&[8, 16]),
        block_h: random.pick(&[8, 16]),
        rounding: random.byte(),
    };
    let out_len = block.block_w * block.block_h;
    Call { function, reference, block, bits_per_pixel: random.int(1, 8) as u32, out_len }
}

/// What is to be wrong, sides before the length, which depends on them.
fn choose(function: Function, random: &mut Random) -> Vec<u8> {
    let mut numbers = refusal::numbers(function).to_vec();
    let last = numbers.len() - 1;
    numbers.swap(last, last - 1);
    if random.chance(40) {
        return vec![random.pick(&numbers)];
    }
    let always = random.pick(&numbers);
    numbers.retain(|&number| number == always || random.chance(40));
    numbers
}

/// One to four of the numbers beyond their limits.
fn place(b: &mut Block, random: &mut Random) {
    let extremes = [i32::MIN, i32::MAX, random.int(4097, i32::MAX), random.int(i32::MIN, -4097)];
    let mut which = random.size(1, 15);
    for (number, below, above) in [
        (&mut b.origin_x, -4097, 4097),
        (&mut b.origin_y, -4097, 4097),
        (&mut b.mv_x, -2049, 2048),
        (&mut b.mv_y, -2049, 2048),
    ] {
        if which & 1 == 1 {
            let far = random.pick(&extremes);
            *number = random.pick(&[below, above, below, above, far]);
        }
        which >>= 1;
    }
}

/// One or both sides neither 8 nor 16, with the output area as long as they ask if that can be.
fn sides(call: &mut Call, random: &mut Random) {
    let small = random.pick(&[0, 1, 2, 4, 7, 9, 12, 15, 17, 24, 32]);
    let other = random.pick(&[0, 1, 2, 4, 7, 9, 12, 15, 17, 24, 32]);
    let good = random.pick(&[8, 16]);
    // Products with these wrap around, some to 64 or 256.
    let huge =
        random.pick(&[(1 << 61) + 8, (1 << 60) + 16, beyond_32_bits(8), usize::MAX, 1 << 63]);
    let factor = random.pick(&[0, 1, 2, 8, 16, usize::MAX]);
    let pairs = [(small, good), (good, small), (small, other), (huge, factor), (factor, huge)];
    let b = &mut call.block;
    (b.block_w, b.block_h) = random.pick(&pairs);
    call.out_len = match refusal::area(b) {
        area if area <= LONGEST as u128 => area as usize,
        _ => wrapped(b).unwrap_or(good * good),
    };
}

/// The product of the sides as it would be after wrap-around, if an area can be that long.
fn wrapped(b: &Block) -> Option<usize> {
    let product = b.block_w.wrapping_mul(b.block_h);
    (product <= LONGEST).then_some(product)
}

/// An output area of another length than the sides ask for.
fn length(call: &mut Call, random: &mut Random) {
    let area = refusal::area(&call.block);
    let near = area.min(LONGEST as u128) as usize;
    let other = wrapped(&call.block).unwrap_or(64);
    let any = random.size(0, 600);
    loop {
        call.out_len =
            random.pick(&[0, 1, 49, 64, 128, 256, near + 1, near.max(1) - 1, other, any]);
        if call.out_len as u128 != area {
            return;
        }
    }
}
