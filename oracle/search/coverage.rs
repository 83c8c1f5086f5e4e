//! Counts of what the valid calls covered, wrong forms of the search among it.

use super::call::{Answer, Call, Function};
use super::form::{self, Form};
use super::marks;
use super::scene::Scene;
use super::walk::Walks;
use crate::counted::Counted;
use crate::pvop_encode::Place;

/// A wrong form that so many calls told from the right one is not tried any more.
const OFTEN: usize = 1_000;

pub struct Coverage {
    function: Function,
    counted: Counted,
}

impl Coverage {
    pub fn new(function: Function) -> Self {
        Coverage { function, counted: Counted::new(function.name(), marks::all(function)) }
    }

    pub fn count(&mut self, call: &Call, scene: &Scene, answer: &Answer) -> Result<(), String> {
        self.counted.count(marks::of(call, scene, answer));
        let place = Place::new(&call.search);
        let mut walks = Walks::new(call, &place);
        if walks.walk(Form::Right) != *answer {
            return Err(format!("the search written once more differs from the original\n{call}"));
        }
        for &(form, name) in form::wrong(self.function) {
            let rare = self.counted.so_far(marks::TOLD_FROM, name) < OFTEN;
            if rare && walks.walk(form) != *answer {
                self.counted.add(marks::TOLD_FROM, name);
            }
        }
        Ok(())
    }

    pub fn finish(self) -> Result<(), String> {
        self.counted.finish()
    }
}
