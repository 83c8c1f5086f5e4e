//! One call of either search: its arguments, and how each side is asked.

use crate::ask::{self, Search};
use crate::motion::MotionVector;
use crate::pvop_encode::{Part, Place};
use std::fmt;

/// Which of the two functions, without the arguments.
#[derive(Clone, Copy, PartialEq)]
pub enum Function {
    One,
    Four,
}

impl Function {
    pub fn name(self) -> &'static str {
        match self {
            Function::One => "estimate_motion",
            Function::Four => "estimate_motion_4mv",
        }
    }

    /// How many vectors the answer has.
    pub fn count(self) -> usize {
        match self {
            Function::One => 1,
            Function::Four => 4,
        }
    }
}

/// Each vector's horizontal and vertical part, and each one's sum.
#[derive(Clone, Debug, Default, PartialEq)]
pub struct Answer {
    pub vectors: Vec<i32>,
    pub sums: Vec<u32>,
}

impl Answer {
    pub fn push(&mut self, vector: MotionVector, sum: u32) {
        self.vectors.extend([vector.x, vector.y]);
        self.sums.push(sum);
    }
}

#[derive(Clone, Copy)]
pub struct Call<'a> {
    pub function: Function,
    pub search: Search<'a>,
    /// Handed to the search for four vectors only.
    pub seed: (i32, i32),
    pub vectors_len: usize,
    pub sums_len: usize,
}

impl<'a> Call<'a> {
    pub fn new(function: Function, search: Search<'a>, seed: (i32, i32)) -> Self {
        let count = function.count();
        Call { function, search, seed, vectors_len: 2 * count, sums_len: count }
    }

    pub fn ask_library(&self, vectors: &mut [i32], sums: &mut [u32]) -> u8 {
        match self.function {
            Function::One => ask::estimate_motion(&self.search, vectors, sums),
            Function::Four => ask::estimate_motion_4mv(&self.search, self.seed, vectors, sums),
        }
    }

    /// The original's answer, for a call with nothing wrong. Of four vectors it gives the total of
    /// the sums; each one's is taken anew from its own function, and the total is held to them.
    pub fn ask_original(&self) -> Answer {
        let place = Place::new(&self.search);
        let mut answer = Answer::default();
        if self.function == Function::One {
            let (vector, sum) = place.one();
            answer.push(vector, sum);
            return answer;
        }
        let (vectors, total) = place.four(MotionVector { x: self.seed.0, y: self.seed.1 });
        for (i, vector) in vectors.into_iter().enumerate() {
            answer.push(vector, place.vector_sum(Part::Block(i), vector));
        }
        assert_eq!(total, answer.sums.iter().sum::<u32>(), "the total of the original's sums");
        answer
    }
}

/// All arguments but the samples themselves.
impl fmt::Display for Call<'_> {
    fn fmt(&self, f: &mut fmt::Formatter) -> fmt::Result {
        let s = &self.search;
        let (source, r) = (&s.source, &s.reference);
        writeln!(f, "function: {}", self.function.name())?;
        writeln!(f, "source_len: {}", source.samples.len())?;
        writeln!(f, "width: {}, height: {}", source.width, source.height)?;
        writeln!(f, "column: {}, row: {}", s.column, s.row)?;
        writeln!(f, "reference_len: {}", r.samples.len())?;
        writeln!(f, "ref_width: {}, ref_height: {}, stride: {}", r.width, r.height, r.stride)?;
        writeln!(f, "mode: {}, bits_per_pixel: {}", s.mode, s.bits_per_pixel)?;
        writeln!(f, "fcode: {}", s.fcode)?;
        if self.function == Function::Four {
            writeln!(f, "seed: {}, {}", self.seed.0, self.seed.1)?;
        }
        writeln!(f, "vectors_len: {}, sums_len: {}", self.vectors_len, self.sums_len)
    }
}
