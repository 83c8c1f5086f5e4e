//! One call on both sides. The reply, every byte of the output area and the guards around it are
//! compared; the error is the text of the first difference, with the whole input.

use super::call::Call;
use crate::guard::Lent;
use crate::macroblock::lent::lines;

/// Planes up to this length are printed whole.
const WHOLE: usize = 1 << 15;

/// Holds the library to `reply`: 0 with the original's block, or a refusal with nothing written.
pub fn check(call: &Call, reply: u8, salt: u8) -> Result<(), String> {
    let mut lent = Lent::<u8>::new(call.out_len, salt);
    let got = call.ask_library(lent.area());
    let found = if got != reply {
        format!("reply {got}, wanted {reply}")
    } else if reply != 0 && !lent.untouched() {
        format!("refused with {got}, and bytes were written")
    } else if reply == 0 && !lent.guards_hold() {
        "bytes were written outside the output area".to_string()
    } else if reply == 0 {
        return same_block(call, lent.contents());
    } else {
        return Ok(());
    };
    let samples = if reply == 0 { samples(call) } else { String::new() };
    Err(format!("MISMATCH: {found}\n{call}{samples}"))
}

fn same_block(call: &Call, got: &[u8]) -> Result<(), String> {
    let wanted = call.ask_original();
    let Some(at) = wanted.iter().zip(got).position(|(w, g)| w != g) else {
        return Ok(());
    };
    let found = format!("output byte {at} is {}, wanted {}", got[at], wanted[at]);
    let width = call.block.block_w;
    let wanted = lines("the original's block", &wanted, width);
    let got = lines("the library's block", got, width);
    Err(format!("MISMATCH: {found}\n{call}{}{wanted}{got}", samples(call)))
}

/// The samples, whole if they are few, else all that the block can read: its rows and columns and
/// one more of each, clamped into the plane.
fn samples(call: &Call) -> String {
    let r = &call.reference;
    if r.samples.len() <= WHOLE {
        return lines("samples", r.samples, r.stride);
    }
    let (x, y) = call.start();
    let clamp = |at: i32, side: usize| at.clamp(0, side as i32 - 1) as usize;
    let mut window = Vec::new();
    for j in 0..=call.block.block_h as i32 {
        for i in 0..=call.block.block_w as i32 {
            window.push(r.samples[clamp(y + j, r.height) * r.stride + clamp(x + i, r.width)]);
        }
    }
    lines("samples that the block can read", &window, call.block.block_w + 1)
}
