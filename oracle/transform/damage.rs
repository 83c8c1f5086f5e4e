//! Random calls with something wrong, and what is wrong with a call, written from the list and
//! independent of the library.

use super::block::{self, Kind};
use crate::random::Random;

pub struct Call {
    pub residual: Vec<i32>,
    pub out_len: usize,
}

/// All reasons to turn a call back, in order. The reply is the first, or 0 if there is none.
pub fn reasons(residual: &[i32], out_len: usize) -> Vec<u8> {
    let mut numbers = Vec::new();
    if residual.len() != 64 || out_len != 64 {
        numbers.push(12);
    }
    if residual.iter().any(|n| !(-255..=255).contains(n)) {
        numbers.push(13);
    }
    numbers
}

pub fn call(random: &mut Random) -> Call {
    let kind = random.pick(&Kind::ALL);
    let mut call = Call { residual: block::residual(kind, random).to_vec(), out_len: 64 };
    let which = random.size(1, 3);
    if which & 1 == 1 {
        lengths(&mut call, random);
    }
    if which & 2 == 2 && !call.residual.is_empty() {
        range(&mut call.residual, random);
    }
    if reasons(&call.residual, call.out_len).is_empty() {
        call.out_len = 0;
    }
    call
}

/// One length or both other than 64.
fn lengths(call: &mut Call, random: &mut Random) {
    let any = random.size(0, 200);
    let which = random.size(1, 3);
    if which & 1 == 1 {
        call.residual.resize(random.pick(&[0, 1, 8, 63, 65, 128, any]), 0);
    }
    if which & 2 == 2 {
        call.out_len = random.pick(&[0, 1, 8, 63, 65, 128, any]);
    }
}

/// One number or a few beyond the range.
fn range(residual: &mut [i32], random: &mut Random) {
    for _ in 0..random.size(1, 3) {
        let far = random.int(256, i32::MAX);
        let place = random.size(0, residual.len() - 1);
        residual[place] = random.pick(&[256, -256, 256, -256, far, -far, i32::MAX, i32::MIN]);
    }
}
