//! `code_macroblock` and `code_predicted_macroblock`, against the originals put together: the answer
//! of the second is that of the first to the prediction that the originals make by the vectors found.
//! Every answer is then read by the reader of demand 3 and held to that demand's sentences.

pub mod call;
pub mod check;
pub mod damage;
mod forms;
mod marks;
pub mod refusal;
pub mod still;
mod valid;

use super::demand::{Checked, Demand};
use super::generator;
use super::planes::Planes;
use super::predicted::Predicted;
use crate::ask::{Coding, Making, Prediction};
use crate::counted::Counted;
use crate::damage::{choose, planes};
use crate::options::Options;
use crate::predicted::{Samples, Told};
use crate::random::Random;
use crate::summary::Row;
use crate::tally::Tally;
use crate::turns;
use call::{Call, Form};
use check::check;
use still::Still;

const CALLS_PER_PICTURE: usize = 5;

/// A macroblock takes as long as two searches, so there is one for every so many valid calls that
/// are asked for.
const SHARE: usize = 10;

/// So many damaged calls have to cover everything that is counted of them.
const ENOUGH: usize = 20_000;

pub fn compare(options: &Options) -> Vec<Row> {
    let rows = Form::BOTH.map(|form| {
        let mut row = Row::new(form.name());
        valid_calls(form, options, &mut row);
        damaged_calls(form, options, &mut row);
        row
    });
    rows.into()
}

/// What a macroblock is coded against.
pub enum Against<'a> {
    Lent(Predicted),
    /// The originals' prediction, and what it is made of.
    Made(Told<'a>, Box<Samples>),
}

impl<'a> Against<'a> {
    /// For a coding with nothing wrong, whose own prediction is not looked at.
    pub fn new(coding: &Coding<'a>, making: Option<&Making<'a>>, random: &mut Random) -> Self {
        let Some(making) = making else {
            return Against::Lent(Predicted::random(&coding.macroblock(), random));
        };
        let told = Told::found(coding, making);
        Against::Made(told, Box::new(told.predict()))
    }

    fn form(&self) -> Form {
        match self {
            Against::Lent(_) => Form::Lent,
            Against::Made(..) => Form::Made,
        }
    }

    pub fn prediction(&self) -> Prediction<'_> {
        match self {
            Against::Lent(predicted) => predicted.lent(),
            Against::Made(_, samples) => samples.lent(),
        }
    }
}

fn valid_calls(form: Form, options: &Options, row: &mut Row) {
    let mut random = generator(options, 5 + 4 * form as u64);
    let mut counted = Counted::new(form.name(), marks::all(form));
    let mut checked = Checked::default();
    let calls = options.valid / SHARE;
    turns::calls(calls, CALLS_PER_PICTURE, row, &mut random, |still: &Still, row, random| {
        let (mut coding, weights) = valid::coding(still, random);
        let making = (form == Form::Made).then(|| still.making(random));
        let against = Against::new(&coding, making.as_ref(), random);
        coding.prediction = against.prediction();
        coding.quantising.weights = &weights;
        let call = Call::new(coding, making);
        let found = check(&call, 0, random)
            .map_err(|text| format!("picture {:?}\n{text}", still.scene.kind));
        let Some(answer) = row.valid(found) else { return };
        row.same(
            Demand::new(&call, &answer)
                .check(&mut checked)
                .map_err(|text| format!("MISMATCH: demand 3: {text}\n{call}{answer:?}")),
        );
        counted.count(marks::of(&call, still, &against, &answer));
        forms::count(&call, &against, &answer, &mut counted);
    });
    row.covered(checked.finish(form, calls));
    row.covered(counted.finish());
}

fn damaged_calls(form: Form, options: &Options, row: &mut Row) {
    let mut random = generator(options, 6 + 4 * form as u64);
    let stores = Planes::new(&mut random);
    let mut counted =
        Counted::new(form.name(), vec![planes::all()]).naming("damaged calls", ENOUGH);
    let numbers = refusal::numbers(form);
    // A mode that is neither is not quarter mode, so 2 and 3 exclude each other.
    let tally = Tally::new(form.name(), numbers).without(1);
    tally.run(row, options.refused, || {
        let numbers = choose(numbers, &mut random);
        let weights = damage::weights(&numbers, &mut random);
        let call = damage::call(form, &numbers, &stores, &weights, &mut random);
        let reasons = refusal::reasons(&call);
        let found = check(&call, reasons[0], &mut random);
        if let Some(reference) = call.reference() {
            counted.count(planes::marks(&reference, reasons[0]));
        }
        (reasons, found)
    });
    if form == Form::Made {
        row.covered(counted.finish());
    }
    row.unchanged(stores.unchanged());
}
