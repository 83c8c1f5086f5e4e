//! A scene of the searches with chroma planes beside its luma, the source's and the reference's.

use crate::ask::{Making, Reference, Source};
use crate::pictures::{noise, smooth};
use crate::random::Random;
use crate::search::scene::{Lending, Scene};
use crate::turns::Lendable;

pub struct Still {
    pub scene: Scene,
    cb: Lending,
    cr: Lending,
    before: Chroma,
}

impl Lendable for Still {
    fn random(turn: usize, random: &mut Random) -> Still {
        let scene = Scene::random(turn, random);
        let Source { width, height, .. } = scene.source();
        let (across, down) = (scene.motion.0 / 2, scene.motion.1 / 2);
        let textures = [(); 2].map(|()| texture(random));
        let [cb, cr] = [0, 1].map(|k| {
            let (width, height) = (width.div_ceil(2), height.div_ceil(2));
            let moved = |x, y| textures[k](x + across, y + down);
            Lending::new(width, height, width, moved, random)
        });
        let Reference { width, height, .. } = scene.reference();
        let before = Chroma::random((width, height), textures, random);
        Still { scene, cb, cr, before }
    }

    fn unchanged(&self) -> bool {
        let source = self.cb.unchanged() && self.cr.unchanged();
        self.scene.unchanged() && source && self.before.unchanged()
    }
}

impl Still {
    pub fn cb(&self) -> &[u8] {
        self.cb.samples()
    }

    pub fn cr(&self) -> &[u8] {
        self.cr.samples()
    }

    /// What a prediction is made of beside luma.
    pub fn making(&self, random: &mut Random) -> Making<'_> {
        self.before.making(random)
    }
}

pub type Texture = Box<dyn Fn(i32, i32) -> u8>;

/// One shade, a smooth texture, or noise.
pub fn texture(random: &mut Random) -> Texture {
    let (kind, salt, cell) = (random.size(0, 2), random.bits(), random.int(2, 14));
    let shade = random.byte();
    match kind {
        0 => Box::new(move |_, _| shade),
        1 => Box::new(move |x, y| smooth(x, y, cell, salt)),
        _ => Box::new(move |x, y| noise(x, y, salt)),
    }
}

/// A reference's chroma planes.
pub struct Chroma {
    cb: Lending,
    cr: Lending,
    stride: usize,
}

impl Chroma {
    /// Of a reference with these luma sides: Cb and Cr of these textures, or at times of others.
    pub fn random(
        (width, height): (usize, usize),
        textures: [Texture; 2],
        random: &mut Random,
    ) -> Self {
        let (width, height) = (width.div_ceil(2), height.div_ceil(2));
        let more = random.size(1, 20);
        let stride = width + random.pick(&[0, 0, 0, more, width]);
        let [cb, cr] = textures.map(|own| {
            let shown = if random.chance(30) { texture(random) } else { own };
            Lending::new(width, height, stride, shown, random)
        });
        Chroma { cb, cr, stride }
    }

    pub fn making(&self, random: &mut Random) -> Making<'_> {
        let rounding = random.size(0, 1) as u8;
        let (cb, cr) = (self.cb.samples(), self.cr.samples());
        Making { cb, cr, chroma_stride: self.stride, rounding }
    }

    /// No call may change samples that are lent for reading.
    pub fn unchanged(&self) -> bool {
        self.cb.unchanged() && self.cr.unchanged()
    }
}
