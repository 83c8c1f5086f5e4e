//! One call on both sides. The reply, every number of the output area, the guards around it and
//! the residual are compared; the error is the text of the first difference, with the whole input.

use crate::fdct;
use crate::guard::Lent;
use crate::macroblock::lent::lines;
use hencouch::raw;

/// Holds the library to `reply`: 0 with the original's coefficients, which are handed back, or a
/// refusal with nothing written.
pub fn check(residual: &[i32], out_len: usize, reply: u8, salt: u8) -> Result<Vec<i32>, String> {
    let handed = residual.to_vec();
    let mut lent = Lent::<i32>::new(out_len, salt);
    let got = raw::forward_dct_8x8(&handed, lent.area());
    let found = if got != reply {
        format!("reply {got}, wanted {reply}")
    } else if handed != residual {
        "the residual was changed".to_string()
    } else if reply != 0 && !lent.untouched() {
        format!("refused with {got}, and numbers were written")
    } else if reply != 0 {
        return Ok(Vec::new());
    } else if !lent.guards_hold() {
        "numbers were written outside the output area".to_string()
    } else {
        return same_block(residual, lent.contents());
    };
    Err(format!("MISMATCH: {found}\nout_len: {out_len}\n{}", lines("residual", residual, 8)))
}

fn same_block(residual: &[i32], got: &[i32]) -> Result<Vec<i32>, String> {
    let wanted = ask_original(residual);
    let Some(at) = wanted.iter().zip(got).position(|(w, g)| w != g) else {
        return Ok(wanted);
    };
    let found = format!("coefficient {at} is {}, wanted {}", got[at], wanted[at]);
    let residual = lines("residual", residual, 8);
    let wanted = lines("the original's coefficients", &wanted, 8);
    let got = lines("the library's coefficients", got, 8);
    Err(format!("MISMATCH: {found}\n{residual}{wanted}{got}"))
}

/// The original's answer, for a residual of 64.
fn ask_original(residual: &[i32]) -> Vec<i32> {
    let mut samples = [[0; 8]; 8];
    for (k, &number) in residual.iter().enumerate() {
        samples[k / 8][k % 8] = number;
    }
    fdct::forward_dct_8x8(&samples, 8).concat()
}
