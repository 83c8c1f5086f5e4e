//! One call of the entries that search and code, and how either side is asked.

use crate::ask::{self, Areas, Coding, Making, Record, ReferencePlanes, Run};
use crate::macroblock::lent::{lines, Laid};
use crate::macroblock::residual;
use crate::pvop_encode::{Coder, Part};
use std::fmt;

/// Whether the prediction coded against is lent or made by the library.
#[derive(Clone, Copy, PartialEq)]
pub enum Form {
    Lent,
    Made,
}

impl Form {
    pub const BOTH: [Form; 2] = [Form::Lent, Form::Made];

    pub fn name(self) -> &'static str {
        match self {
            Form::Lent => "code_macroblock",
            Form::Made => "code_predicted_macroblock",
        }
    }
}

pub struct Call<'a> {
    /// Where the prediction is made, the one here is what it has to be.
    pub coding: Coding<'a>,
    pub making: Option<Making<'a>>,
    /// Of the areas for marks, runs and levels.
    pub lens: [usize; 3],
}

/// The record, and the events in their areas.
#[derive(Clone, Debug, Default, PartialEq)]
pub struct Answer {
    pub vector: [i32; 2],
    pub sum: u32,
    pub four_vectors: [i32; 8],
    pub four_sums: [u32; 4],
    /// Luma, chroma.
    pub patterns: [u8; 2],
    pub events: Laid,
}

impl<'a> Call<'a> {
    /// With areas as long as they have to be.
    pub fn new(coding: Coding<'a>, making: Option<Making<'a>>) -> Self {
        Call { coding, making, lens: [384; 3] }
    }

    /// The reference's planes, where the prediction is made.
    pub fn reference(&self) -> Option<ReferencePlanes<'a>> {
        self.making.map(|making| making.reference(self.coding.search.reference))
    }

    pub fn ask_library(&self, areas: Areas, record: Record) -> u8 {
        match &self.making {
            None => ask::code_macroblock(&self.coding, areas, record),
            Some(making) => ask::code_predicted_macroblock(&self.coding, making, areas, record),
        }
    }

    /// As a step of a run, which has no place of its own to be told.
    pub fn ask_step(&self, run: &mut Run, areas: Areas, record: Record) -> u8 {
        let mut told = self.coding;
        (told.search.column, told.search.row) = (usize::MAX, usize::MAX);
        match &self.making {
            None => ask::step(run, &told, areas, record),
            Some(making) => ask::step_predicted(run, &told, making, areas, record),
        }
    }

    /// The originals' answer, for a call with nothing wrong. Of four vectors they give the total of
    /// the sums; each one's is taken anew from their own function, and the total is held to them.
    pub fn ask_original(&self) -> Answer {
        let coder = Coder::new(&self.coding);
        let coded = coder.code();
        let mut answer = Answer {
            vector: [coded.vector.x, coded.vector.y],
            sum: coded.sum,
            patterns: [coded.patterns.0, coded.patterns.1],
            events: Laid::out(&coded.events),
            ..Answer::default()
        };
        if let Some((vectors, total)) = coded.four {
            for (i, vector) in vectors.into_iter().enumerate() {
                answer.four_vectors[2 * i] = vector.x;
                answer.four_vectors[2 * i + 1] = vector.y;
                answer.four_sums[i] = coder.place.vector_sum(Part::Block(i), vector);
            }
            let sums: u32 = answer.four_sums.iter().sum();
            assert_eq!(total, sums, "the total of the original's sums");
        }
        answer
    }
}

/// All arguments. Samples of long planes are cut short.
impl fmt::Display for Call<'_> {
    fn fmt(&self, f: &mut fmt::Formatter) -> fmt::Result {
        let Coding { search: s, vectors, quantising: q, .. } = &self.coding;
        let r = &s.reference;
        writeln!(f, "fcode: {}, mode: {}, bits_per_pixel: {}", s.fcode, s.mode, s.bits_per_pixel)?;
        writeln!(f, "vectors: {vectors}, scan: {}", q.scan)?;
        writeln!(f, "quantiser: {}, first_method: {}", q.quantiser, q.first_method)?;
        writeln!(f, "ref_width: {}, ref_height: {}, stride: {}", r.width, r.height, r.stride)?;
        writeln!(f, "lengths of marks, runs, levels: {:?}", self.lens)?;
        let most = r.samples.len().min(1 << 16);
        write!(f, "{}", lines("reference", &r.samples[..most], r.stride))?;
        if let Some(m) = &self.making {
            let most = |samples: &[u8]| samples[..samples.len().min(1 << 16)].to_vec();
            writeln!(f, "rounding: {}, chroma_stride: {}", m.rounding, m.chroma_stride)?;
            write!(f, "{}", lines("ref_cb", &most(m.cb), m.chroma_stride))?;
            write!(f, "{}", lines("ref_cr", &most(m.cr), m.chroma_stride))?;
        }
        write!(f, "{}", lines("weights", q.weights, 8))?;
        write!(f, "{}", residual::text(&self.coding.macroblock()))
    }
}
