//! Inputs with something wrong, or more than is read.

use super::moving::Moving;
use crate::broodline::{Header, HEADER, NUMBERS};
use crate::random::Random;

pub const KINDS: [&str; 6] =
    ["one field", "two fields", "any fields", "random header", "random bytes", "random input"];

/// An input of the kind whose turn it is.
pub fn random(turn: usize, clip: &Moving, random: &mut Random) -> (&'static str, Vec<u8>) {
    let kind = KINDS[turn % KINDS.len()];
    let mut input = clip.bytes.clone();
    match kind {
        "random bytes" => {
            for _ in 0..random.size(1, 9) {
                let last = if random.chance(30) { HEADER } else { input.len() } - 1;
                let at = random.size(0, last);
                input[at] = random.byte();
            }
        }
        "random input" => {
            let any = random.size(0, 3000);
            input = vec![0; random.pick(&[0, 7, 8, 9, 500, any])];
            random.fill(&mut input);
        }
        _ => {
            let header = header(kind, &clip.header, random);
            input[..HEADER].copy_from_slice(&header.bytes());
            // Whatever comes after it, the header is judged first.
            let any = random.size(HEADER, input.len());
            input.truncate(random.pick(&[HEADER, any, input.len()]));
        }
    }
    (kind, input)
}

/// The input with bytes that are not read.
pub fn left_over(bytes: &[u8], random: &mut Random) -> Vec<u8> {
    let any = random.size(1, 2000);
    let mut more = vec![0; random.pick(&[1, 8, 384, any, 100_000])];
    random.fill(&mut more);
    [bytes, &more].concat()
}

fn header(kind: &str, good: &Header, random: &mut Random) -> Header {
    if kind == "random header" {
        let mut bytes = [0; HEADER];
        random.fill(&mut bytes);
        // So that not the first two fields alone are judged.
        for (byte, most) in bytes.iter_mut().zip([1, 255, 1, 255, 9, 2, 40, 5]) {
            *byte %= most + u8::from(most < 255);
        }
        return Header::read(bytes);
    }
    let mut header = *good;
    let first = random.size(0, NUMBERS.len() - 1);
    let second = (first + random.size(1, NUMBERS.len() - 1)) % NUMBERS.len();
    for (field, number) in NUMBERS.iter().enumerate() {
        let bad = match kind {
            "one field" => field == first,
            "two fields" => field == first || field == second,
            _ => random.chance(50),
        };
        if bad {
            spoil(&mut header, *number, random);
        }
    }
    header
}

/// Gives the header this reason.
fn spoil(header: &mut Header, number: u8, random: &mut Random) {
    let any = random.int(33, 254) as u8;
    match number {
        1 => header.fcode = random.pick(&[0, 0, 8, 8, 9, 255, any]),
        2 => header.mode = random.pick(&[2, 2, 3, 255, any]),
        6 => sides(header, random),
        10 => header.quantiser = random.pick(&[0, 0, 32, 32, 255, any]),
        _ => header.vectors = random.pick(&[0, 2, 3, 5, 255, any]),
    }
}

/// A side of 0, one too long, one whose low byte alone would do, or any that is too long.
fn sides(header: &mut Header, random: &mut Random) {
    let any = random.int(256, 65_535) as u16;
    let huge = random.pick(&[4096, 4097, u16::MAX, any]);
    match random.size(0, 7) {
        0 => header.width = 0,
        1 => header.height = 0,
        2 => header.width = 177,
        3 => header.height = 145,
        // The bounds exchanged.
        4 => (header.width, header.height) = (144, 176),
        5 => header.width = random.pick(&[256 + header.width, huge]),
        6 => header.height = random.pick(&[256 + header.height, huge]),
        _ => (header.width, header.height) = (0, 0),
    }
}
