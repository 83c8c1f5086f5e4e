//! Random calls with nothing wrong.

use super::still::Still;
use crate::ask::{Coding, Prediction, Quantising};
use crate::macroblock::quantising;
use crate::random::Random;
use crate::search::call::Function;
use crate::search::valid;

/// A call that is yet to be handed what it is coded against, and its matrix, which is the other.
pub fn coding<'a>(still: &'a Still, random: &mut Random) -> (Coding<'a>, Vec<u8>) {
    let search = valid::call(Function::One, &still.scene, random).search;
    let first_method = if random.chance(50) { 0 } else { random.int(1, 255) as u8 };
    let weights = quantising::weights(first_method, random);
    let coding = Coding {
        search,
        vectors: random.pick(&[1, 4]),
        cb: still.cb(),
        cr: still.cr(),
        prediction: Prediction { y: &[], cb: &[], cr: &[] },
        quantising: Quantising {
            quantiser: quantising::quantiser(random),
            first_method,
            weights: &[],
            scan: random.size(0, 2) as u32,
        },
    };
    (coding, weights)
}
