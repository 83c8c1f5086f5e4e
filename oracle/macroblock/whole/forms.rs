//! Wrong forms of the entry that come near the right one. For each it is counted how many valid
//! calls tell it from the right one, so that a library which had it would be noticed. Wrong forms
//! of the search are counted where the searches are compared.

use super::call::{Answer, Call, Form};
use super::Against;
use crate::ask::{Coding, Prediction, Source};
use crate::counted::Counted;
use crate::macroblock::lent::Laid;
use crate::motion::MotionVector;
use crate::predicted::{Samples, Told};
use crate::predicting::{forms, Count};
use crate::pvop_encode::{prediction_of, Coder};
use crate::pvop_mv::{predict_luma_macroblock, PvopMbMotion};

pub const TOLD_FROM: &str = "told from";
/// Wrong forms of a prediction that is made.
pub const PREDICTION: &str = "prediction told from";

/// A wrong form that so many calls told from the right one is not tried any more.
const OFTEN: usize = 1_000;

const NAMES: [&str; 9] = [
    "first method as the second",
    "second method as the first",
    "scans 0 and 1 exchanged",
    "zigzag always",
    "weights by columns",
    "quantiser one less",
    "Cb and Cr exchanged",
    "chroma sides halved down",
    "four seeded by zero",
];
const OWN_PREDICTION: &str = "coded against its own luma prediction";
const SUM_AT_TYPE: &str = "sum at the rounding type";

pub fn names(form: Form) -> Vec<&'static str> {
    let own = match form {
        Form::Lent => OWN_PREDICTION,
        Form::Made => SUM_AT_TYPE,
    };
    NAMES.into_iter().chain([own]).collect()
}

/// Of one vector and of four.
pub fn predictions() -> Vec<&'static str> {
    let mut all = forms::names(Count::One);
    all.extend(forms::names(Count::Four));
    all.sort();
    all.dedup();
    all
}

/// Counts the wrong forms that would have shown.
pub fn count(call: &Call, against: &Against, answer: &Answer, counted: &mut Counted) {
    for name in names(against.form()) {
        if counted.so_far(TOLD_FROM, name) < OFTEN && differs(name, call, answer) {
            counted.add(TOLD_FROM, name);
        }
    }
    let Against::Made(told, samples) = against else { return };
    for name in predictions() {
        if counted.so_far(PREDICTION, name) < OFTEN
            && predicted_otherwise(name, call, told, samples, answer)
        {
            counted.add(PREDICTION, name);
        }
    }
}

/// Whether a wrong form of the prediction gives other events.
fn predicted_otherwise(
    name: &str,
    call: &Call,
    told: &Told,
    right: &Samples,
    answer: &Answer,
) -> bool {
    let [x, y] = answer.vector;
    let Some(samples) = told.wrong(name, MotionVector { x, y }, right) else { return false };
    let prediction = samples.lent();
    samples != *right && events(&Coding { prediction, ..call.coding }, answer)
}

fn differs(name: &str, call: &Call, answer: &Answer) -> bool {
    let mut c = call.coding;
    let q = &mut c.quantising;
    let flat = [16; 64];
    let turned: Vec<u8> = (0..64).map(|k| q.weights[k % 8 * 8 + k / 8]).collect();
    match name {
        "first method as the second" => q.first_method != 0 && events(&with(&mut c, 0), answer),
        "second method as the first" => {
            let second = q.first_method == 0;
            q.weights = &flat;
            second && events(&with(&mut c, 1), answer)
        }
        "scans 0 and 1 exchanged" => {
            let alternate = q.scan < 2;
            q.scan = 1 - q.scan.min(1);
            alternate && events(&c, answer)
        }
        "zigzag always" => {
            q.scan = 2;
            events(&c, answer)
        }
        "weights by columns" => {
            q.weights = &turned;
            q.first_method != 0 && events(&c, answer)
        }
        "quantiser one less" => {
            q.quantiser -= 1;
            q.quantiser > 0 && events(&c, answer)
        }
        "Cb and Cr exchanged" => {
            (c.cb, c.cr) = (c.cr, c.cb);
            events(&c, answer)
        }
        "chroma sides halved down" => halved_down(&c, answer),
        OWN_PREDICTION => own_prediction(c, answer),
        SUM_AT_TYPE => call.making.is_some_and(|m| sum_at_type(&c, m.rounding, answer)),
        _ => c.vectors == 4 && seeded_by_zero(&c, answer),
    }
}

fn with<'a>(c: &mut Coding<'a>, first_method: u8) -> Coding<'a> {
    c.quantising.first_method = first_method;
    *c
}

/// Whether these arguments give other events than the answer's.
fn events(c: &Coding, answer: &Answer) -> bool {
    Laid::out(&Coder::new(c).events()) != answer.events
}

/// The chroma planes cut as if an odd side's half were rounded down, where that can be.
fn halved_down(c: &Coding, answer: &Answer) -> bool {
    let Source { width, height, .. } = c.search.source;
    if width % 2 == 0 && height % 2 == 0 || width < 2 || height < 2 {
        return false;
    }
    let (across, down) = (width.div_ceil(2), height.div_ceil(2));
    let shrunk = |plane: &[u8]| -> Vec<u8> {
        let place = |k: usize| {
            let (x, y) = (k % across, k / across);
            y.min(height / 2 - 1) * (width / 2) + x.min(width / 2 - 1)
        };
        (0..across * down).map(|k| plane[place(k)]).collect()
    };
    let (cb, cr) = (shrunk(c.cb), shrunk(c.cr));
    events(&Coding { cb: &cb, cr: &cr, ..*c }, answer)
}

/// The luma coded against what the one vector predicts instead of the lent prediction.
fn own_prediction(c: Coding, answer: &Answer) -> bool {
    let luma = one_vector_luma(&Coder::new(&c), answer, 0);
    let prediction = Prediction { y: &luma, ..c.prediction };
    prediction_of(&prediction).luma != prediction_of(&c.prediction).luma
        && events(&Coding { prediction, ..c }, answer)
}

/// What the answer's one vector predicts.
fn one_vector_luma(coder: &Coder, answer: &Answer, rounding: u8) -> [u8; 256] {
    let [x, y] = answer.vector;
    let (place, motion) = (&coder.place, PvopMbMotion::one(x, y));
    predict_luma_macroblock(motion, &place.reference, place.x, place.y, rounding, place.mode)
        .expect("one vector always gives a prediction")
}

/// Whether the one vector's sum is another at the prediction's rounding type.
fn sum_at_type(c: &Coding, rounding: u8, answer: &Answer) -> bool {
    let coder = Coder::new(c);
    let luma = one_vector_luma(&coder, answer, rounding);
    let source = coder.place.samples.as_flattened().iter();
    let apart = source.zip(luma).map(|(sample, own)| sample.abs_diff(own.into()));
    apart.sum::<u32>() != answer.sum
}

fn seeded_by_zero(c: &Coding, answer: &Answer) -> bool {
    let (vectors, _) = Coder::new(c).place.four(MotionVector { x: 0, y: 0 });
    let parts: Vec<i32> = vectors.iter().flat_map(|vector| [vector.x, vector.y]).collect();
    parts != answer.four_vectors
}
