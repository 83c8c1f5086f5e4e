//! Calls made by hand: the rules' example, the two blocks that tell other roundings apart, each
//! bound on both sides, and the order of the refusals. What is wanted is written here and not
//! worked out.

use super::check::check;
use super::damage;

/// Compares all cases and tells how many there are.
pub fn compare() -> Result<usize, String> {
    all_one()?;
    for (name, numbers, (row, column), wanted) in BLOCKS {
        let got = check(&block(numbers), 64, 0, 0xA5)?[row * 8 + column];
        if got != *wanted {
            return Err(format!(
                "{name}: coefficient {row}, {column} is {got}, listed as {wanted}"
            ));
        }
    }
    for &(name, reply, len, out_len, (place, number)) in REPLIES {
        let mut residual = vec![1; len];
        if let Some(at) = residual.get_mut(place) {
            *at = number;
        }
        let first = damage::reasons(&residual, out_len).first().copied().unwrap_or(0);
        if first != reply {
            return Err(format!("{name}: listed as {reply}, worked out as {first}"));
        }
        check(&residual, out_len, reply, 0xA5).map_err(|text| format!("{name}\n{text}"))?;
    }
    Ok(1 + BLOCKS.len() + REPLIES.len())
}

/// Residual all 1: first coefficient 8, others 0.
fn all_one() -> Result<(), String> {
    let mut wanted = [0; 64];
    wanted[0] = 8;
    if check(&[1; 64], 64, 0, 0xA5)? == wanted {
        return Ok(());
    }
    Err("residual all 1: not first coefficient 8, others 0".to_string())
}

/// A name; the numbers that are not 0, with row and column; a coefficient's row and column; what it
/// is.
type Block = (&'static str, &'static [(usize, usize, i32)], (usize, usize), i32);

const BLOCKS: &[Block] = &[
    (
        "no product and sum are one operation",
        &[(1, 0, -1), (3, 1, 1), (5, 3, -1), (7, 2, -1)],
        (1, 3),
        -1,
    ),
    ("just below one half", &[(0, 1, -2), (3, 2, 1), (4, 5, 1)], (1, 5), 0),
    ("a half", &[(0, 0, 4)], (0, 0), 1),
    ("a half below 0", &[(0, 0, -4)], (0, 0), -1),
    ("one and a half", &[(0, 0, 12)], (0, 0), 2),
    ("two and a half", &[(0, 0, 20)], (0, 0), 3),
    ("two and a half below 0", &[(0, 0, -20)], (0, 0), -3),
];

fn block(numbers: &[(usize, usize, i32)]) -> [i32; 64] {
    let mut residual = [0; 64];
    for &(row, column, number) in numbers {
        residual[row * 8 + column] = number;
    }
    residual
}

/// A name, the reply, both lengths, and one number with its place; the other numbers are 1.
type Reply = (&'static str, u8, usize, usize, (usize, i32));

const REPLIES: &[Reply] = &[
    ("255 first", 0, 64, 64, (0, 255)),
    ("-255 last", 0, 64, 64, (63, -255)),
    ("256 first", 13, 64, 64, (0, 256)),
    ("256 last", 13, 64, 64, (63, 256)),
    ("-256 first", 13, 64, 64, (0, -256)),
    ("-256 last", 13, 64, 64, (63, -256)),
    ("the greatest number", 13, 64, 64, (31, i32::MAX)),
    ("the least number", 13, 64, 64, (32, i32::MIN)),
    ("255 in the low byte", 13, 64, 64, (7, 0x1FF)),
    ("no residual", 12, 0, 64, (0, 1)),
    ("63 residuals", 12, 63, 64, (0, 1)),
    ("65 residuals", 12, 65, 64, (0, 1)),
    ("no area", 12, 64, 0, (0, 1)),
    ("63 coefficients", 12, 64, 63, (0, 1)),
    ("65 coefficients", 12, 64, 65, (0, 1)),
    ("both too short by one", 12, 63, 63, (0, 1)),
    ("both too long by one", 12, 65, 65, (0, 1)),
    ("nothing at all", 12, 0, 0, (0, 1)),
    ("a short residual beyond the range", 12, 63, 64, (5, 256)),
    ("a short area, beyond the range", 12, 64, 63, (5, -256)),
];
