//! Levels of a block and their inverse: `quantise_block` and `inverse_block`, against the originals
//! `quantise_method1_inter`, `quantise_method2_inter` and `inverse_quant_method2_coef` with
//! `saturate_fprime`, coefficient by coefficient.

use crate::damage;
use crate::guard::{held, Lent};
use crate::inverse_quant::{inverse_quant_method2_coef, saturate_fprime};
use crate::options::Options;
use crate::quantise::{quantise_method1_inter, quantise_method2_inter};
use crate::random::Random;
use crate::summary::Row;
use crate::tally::Tally;
use hencouch::raw;

/// One call of either function; the inverse takes neither method nor weights.
#[derive(Clone, Debug)]
struct Call {
    inverse: bool,
    input: Vec<i32>,
    quantiser: u32,
    first_method: u8,
    weights: Vec<u8>,
    out_len: usize,
}

impl Call {
    fn range(&self) -> std::ops::RangeInclusive<i32> {
        if self.inverse {
            -2047..=2047
        } else {
            -2048..=2047
        }
    }

    /// All reasons to turn the call back, in order.
    fn reasons(&self) -> Vec<u8> {
        let quantiser = !(1..=31).contains(&self.quantiser);
        let weight = !self.inverse && self.first_method != 0 && self.weights.contains(&0);
        let long = [self.input.len(), self.out_len, self.weights.len()];
        let length = long[..if self.inverse { 2 } else { 3 }].iter().any(|&n| n != 64);
        let range = self.input.iter().any(|x| !self.range().contains(x));
        let all = [(10, quantiser), (11, weight), (12, length), (13, range)];
        all.iter().filter(|reason| reason.1).map(|reason| reason.0).collect()
    }

    fn ask_library(&self, out: &mut [i32]) -> u8 {
        if self.inverse {
            raw::inverse_block(&self.input, self.quantiser, out)
        } else {
            let Call { input, quantiser, first_method, weights, .. } = self;
            raw::quantise_block(input, *quantiser, *first_method, weights, out)
        }
    }

    /// The originals' answer, for a call with nothing wrong.
    fn ask_original(&self) -> Vec<i32> {
        let one = |(i, &x): (usize, &i32)| match (self.inverse, self.first_method) {
            (true, _) => saturate_fprime(inverse_quant_method2_coef(x, self.quantiser), 8),
            (false, 0) => quantise_method2_inter(x, self.quantiser),
            (false, _) => quantise_method1_inter(x, self.weights[i], self.quantiser),
        };
        self.input.iter().enumerate().map(one).collect()
    }

    /// What a call lent for reading is as it was.
    fn unchanged_from(&self, before: &Call) -> Result<(), String> {
        let same = self.input == before.input && self.weights == before.weights;
        same.then_some(()).ok_or("what was lent for reading was changed".to_string())
    }

    fn check(&self, salt: u8) -> Result<(), String> {
        let reply = self.reasons().first().copied().unwrap_or(0);
        let mut lent = Lent::<i32>::new(self.out_len, salt);
        let handed = self.clone();
        let got = handed.ask_library(lent.area());
        let wanted = if reply == 0 { self.ask_original() } else { Vec::new() };
        let found = held(&lent, got, reply, &wanted).and(handed.unchanged_from(self));
        found.map_err(|text| format!("MISMATCH: {text}\n{self:?}"))
    }
}

pub fn compare(options: &Options) -> Vec<Row> {
    let rows = [(false, "quantise_block"), (true, "inverse_block")].map(|(inverse, name)| {
        let mut row = Row::new(name);
        let mut random = Random::new(options.seed.wrapping_add(0x10 + inverse as u64));
        if let Some(values) = row.same(every_value(inverse, &mut random)) {
            println!("{name}: {values} values equal: every coefficient or level, every quantiser");
        }
        for _ in 0..options.valid {
            row.valid(valid(inverse, &mut random).check(random.byte()));
        }
        Tally::new(name, numbers(inverse)).run(&mut row, options.refused, || {
            let call = damaged(inverse, &mut random);
            (call.reasons(), call.check(random.byte()))
        });
        row
    });
    rows.into()
}

fn numbers(inverse: bool) -> &'static [u8] {
    if inverse {
        &[10, 12, 13]
    } else {
        &[10, 11, 12, 13]
    }
}

/// Every value of the range with every quantiser: by the second method or the inverse, and by the
/// first method with the weights at both ends, small ones, and some at random. The count of values.
fn every_value(inverse: bool, random: &mut Random) -> Result<usize, String> {
    let mut weights = vec![None];
    if !inverse {
        weights.extend([1, 2, 3, 8, 15, 16, 17, 128, 254, 255].map(Some));
        weights.extend((0..6).map(|_| Some(random.int(1, 255) as u8)));
    }
    let low = if inverse { -2047 } else { -2048 };
    let all: Vec<i32> = (low..=2047).collect();
    let mut values = 0;
    for weight in weights {
        for quantiser in 1..=31 {
            for part in all.chunks(64) {
                let mut input = part.to_vec();
                input.resize(64, 0);
                let first_method = weight.is_some() as u8;
                let weights = vec![weight.unwrap_or(0); 64];
                let call = Call { inverse, input, quantiser, first_method, weights, out_len: 64 };
                call.check(random.byte())?;
                values += part.len();
            }
        }
    }
    Ok(values)
}

/// A call with nothing wrong. Large and small coefficients, and a matrix of its own; under the
/// second method it may hold zeros.
fn valid(inverse: bool, random: &mut Random) -> Call {
    let first_method = if random.chance(50) { 0 } else { random.byte() };
    let least = if first_method == 0 { 0 } else { 1 };
    let low = if inverse { -2047 } else { -2048 };
    let reach = random.pick(&[2047, 2047, 300, 40, 5]);
    Call {
        inverse,
        input: (0..64).map(|_| random.int(low.max(-reach - 1), reach)).collect(),
        quantiser: random.int(1, 31) as u32,
        first_method,
        weights: (0..64).map(|_| random.int(least, 255) as u8).collect(),
        out_len: 64,
    }
}

fn damaged(inverse: bool, random: &mut Random) -> Call {
    let mut call = valid(inverse, random);
    for number in damage::choose(numbers(inverse), random) {
        spoil(&mut call, number, random);
    }
    call
}

fn spoil(call: &mut Call, number: u8, random: &mut Random) {
    match number {
        10 => call.quantiser = damage::quantiser(random),
        11 => {
            call.first_method = random.pick(&[1, 2, 128, 255]);
            let at = random.size(0, call.weights.len() - 1);
            call.weights[at] = 0;
        }
        12 => {
            let len = random.pick(&[0, 1, 63, 65, 128]);
            match random.size(0, if call.inverse { 1 } else { 2 }) {
                0 => call.out_len = len,
                1 => call.input.resize(len, 0),
                _ => call.weights.resize(len, 1),
            }
        }
        _ if call.input.is_empty() => call.input.push(2048),
        _ => {
            let at = random.size(0, call.input.len() - 1);
            let beyond = if call.inverse { -2048 } else { -2049 };
            call.input[at] = random.pick(&[beyond, 2048, 4096, i32::MIN, i32::MAX]);
        }
    }
}
