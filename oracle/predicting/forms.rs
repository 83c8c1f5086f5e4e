//! Wrong forms of the prediction that come near the right one. For each it is counted how many valid
//! calls tell it from the right one, so that a library which had it would be noticed.

use super::{rules, Count};
use crate::ask::{chroma_planes, Reference, ReferencePlanes};
use crate::bvop_prediction::BVopSampleMode;
use crate::half_sample::ReferenceVop;
use crate::motion::MotionVector;
use crate::predicted::{chroma_vector, Planes, Samples, Told};
use crate::pvop_mv::PvopMbMotion;
use crate::quarter_sample::interpolate_block_qpel_into;

/// Other samples, or none where the form says nothing else of such a call.
type Form = fn(&Told, &Samples) -> Option<Samples>;

const FORMS: [(&str, Form); 7] = [
    ("the other rounding type", |told, _| {
        Some(Told { rounding: 1 - told.rounding, ..*told }.predict())
    }),
    ("Cb and Cr exchanged", |_, right| {
        Some(Samples { cb: right.cr, cr: right.cb, ..right.clone() })
    }),
    ("luma's stride for chroma", |told, right| Some(luma_stride(told, right))),
    ("chroma sides halved down", halved_down),
    ("chroma at luma's corner", |told, right| {
        let (column, row) = told.place;
        let planes = Planes::new(&told.reference);
        Some(with(planes.chroma(told.vector(), (2 * column, 2 * row), told.rounding), right))
    }),
    ("chroma by quarter filters", |told, right| match told.mode {
        BVopSampleMode::HalfPel => None,
        BVopSampleMode::QuarterPel { bits_per_pixel } => {
            Some(with(filtered(told, bits_per_pixel), right))
        }
    }),
    ("chroma cut to the bits", |told, right| match told.mode {
        BVopSampleMode::HalfPel => None,
        BVopSampleMode::QuarterPel { bits_per_pixel } => {
            let most = ((1u32 << bits_per_pixel) - 1) as u8;
            let cut = |block: [u8; 64]| block.map(|sample| sample.min(most));
            Some(with([cut(right.cb), cut(right.cr)], right))
        }
    }),
];

const ONE_FOR_FOUR: &str = "one vector for four";

/// The forms' names, wrong rules of the chroma vector among them.
pub fn names(count: Count) -> Vec<&'static str> {
    let rules = rules::wrong(count).iter().map(|rule| rule.0);
    let mut all: Vec<&str> = FORMS.iter().map(|form| form.0).chain(rules).collect();
    if count == Count::Four {
        all.push(ONE_FOR_FOUR);
    }
    all
}

impl Told<'_> {
    fn vector(&self) -> MotionVector {
        chroma_vector(self.mode, self.motion)
    }

    /// What a form of this name makes of it, if it says anything else; `one` is used for four.
    pub fn wrong(&self, name: &str, one: MotionVector, right: &Samples) -> Option<Samples> {
        let count = match self.motion {
            PvopMbMotion::OneMv(_) => Count::One,
            PvopMbMotion::FourMv(_) => Count::Four,
        };
        if name == ONE_FOR_FOUR {
            let motion = PvopMbMotion::OneMv(one);
            return (count == Count::Four).then(|| Told { motion, ..*self }.predict());
        }
        if let Some((_, form)) = FORMS.iter().find(|form| form.0 == name) {
            return form(self, right);
        }
        let (_, rule) = rules::wrong(count).iter().find(|rule| rule.0 == name)?;
        let vector = rules::vector(*rule, self.mode, self.motion);
        let planes = Planes::new(&self.reference);
        Some(with(planes.chroma(vector, self.place, self.rounding), right))
    }
}

/// The right luma beside other chroma.
fn with([cb, cr]: [[u8; 64]; 2], right: &Samples) -> Samples {
    Samples { cb, cr, ..right.clone() }
}

/// Where luma's stride leads past a plane's end, its last sample is read.
fn luma_stride(told: &Told, right: &Samples) -> Samples {
    let stride = told.reference.luma.stride;
    let [cb, cr] = chroma_planes(&told.reference).map(|plane| {
        let Reference { samples, width, height, .. } = plane;
        let at = |k: usize| (k / width * stride + k % width).min(samples.len() - 1);
        (0..width * height).map(|k| samples[at(k)]).collect::<Vec<u8>>()
    });
    let chroma_stride = told.reference.luma.width.div_ceil(2);
    let reference = ReferencePlanes { cb: &cb, cr: &cr, chroma_stride, ..told.reference };
    with(Planes::new(&reference).chroma(told.vector(), told.place, told.rounding), right)
}

/// Chroma planes whose sides are the halves of odd sides rounded down, where that can be.
fn halved_down(told: &Told, right: &Samples) -> Option<Samples> {
    let mut reference = told.reference;
    let even = |side: usize| if side > 1 { side / 2 * 2 } else { side };
    let Reference { width, height, .. } = &mut reference.luma;
    (*width, *height) = (even(*width), even(*height));
    let planes = Planes::new(&reference);
    Some(with(planes.chroma(told.vector(), told.place, told.rounding), right))
}

fn filtered(told: &Told, bits: u32) -> [[u8; 64]; 2] {
    let (left, top) = (8 * told.place.0 as i32, 8 * told.place.1 as i32);
    let MotionVector { x, y } = told.vector();
    chroma_planes(&told.reference).map(|plane| {
        let Reference { samples, width, height, stride } = plane;
        let vop = ReferenceVop::with_stride(samples, width, height, stride).expect("a sound plane");
        let mut block = [0; 64];
        let rounding = told.rounding;
        interpolate_block_qpel_into(
            &vop,
            2 * x,
            2 * y,
            left,
            top,
            8,
            8,
            rounding,
            bits,
            &mut block,
        );
        block
    })
}
