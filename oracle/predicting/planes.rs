//! Random references of three planes: luma of every shape, and chroma of half its sides, rounded up.

use crate::ask::ReferencePlanes;
use crate::random::Random;
use crate::sample::plane::Plane;
use crate::turns::Lendable;

pub struct Planes {
    pub luma: Plane,
    cb: Plane,
    cr: Plane,
    chroma_stride: usize,
}

impl Lendable for Planes {
    fn random(turn: usize, random: &mut Random) -> Self {
        let luma = Plane::random(turn, random);
        let reference = luma.reference();
        let (width, height) = (reference.width.div_ceil(2), reference.height.div_ceil(2));
        let wide = if height < 100 { 8192 } else { width };
        let more = width + random.size(1, 40);
        let chroma_stride = random.pick(&[width, width, more, reference.stride, wide]);
        let [cb, cr] =
            [(); 2].map(|()| Plane::new(luma.shape, (width, height), chroma_stride, random));
        Planes { luma, cb, cr, chroma_stride }
    }

    fn unchanged(&self) -> bool {
        [&self.luma, &self.cb, &self.cr].iter().all(|plane| plane.unchanged())
    }
}

impl Planes {
    pub fn reference(&self) -> ReferencePlanes<'_> {
        let [cb, cr] = [&self.cb, &self.cr].map(|plane| plane.reference().samples);
        ReferencePlanes { luma: self.luma.reference(), cb, cr, chroma_stride: self.chroma_stride }
    }
}
