//! The first eight bytes of a clip, and what turns them back, written from the rules.

/// Its length.
pub const HEADER: usize = 8;

/// The numbers that turn a whole header back, in the order in which they are looked at.
pub const NUMBERS: &[u8] = &[1, 2, 6, 10, 14];

/// Every field as it stands there, out of bounds or not.
#[derive(Clone, Copy, Debug, PartialEq)]
pub struct Header {
    pub width: u16,
    pub height: u16,
    pub fcode: u8,
    pub mode: u8,
    pub quantiser: u8,
    pub vectors: u8,
}

impl Header {
    pub fn read(bytes: [u8; HEADER]) -> Self {
        let [w, width, h, height, fcode, mode, quantiser, vectors] = bytes;
        let (width, height) = (u16::from_be_bytes([w, width]), u16::from_be_bytes([h, height]));
        Header { width, height, fcode, mode, quantiser, vectors }
    }

    pub fn bytes(&self) -> [u8; HEADER] {
        let ([w, width], [h, height]) = (self.width.to_be_bytes(), self.height.to_be_bytes());
        [w, width, h, height, self.fcode, self.mode, self.quantiser, self.vectors]
    }

    /// All reasons to turn it back, in order. The refusal is the first.
    pub fn reasons(&self) -> Vec<u8> {
        let all = [
            (1, !(1..=7).contains(&self.fcode)),
            (2, self.mode > 1),
            (6, !(1..=176).contains(&self.width) || !(1..=144).contains(&self.height)),
            (10, !(1..=31).contains(&self.quantiser)),
            (14, ![1, 4].contains(&self.vectors)),
        ];
        all.iter().filter(|reason| reason.1).map(|reason| reason.0).collect()
    }

    /// Of luma; those of chroma are halves, rounded up.
    pub fn sides(&self) -> (usize, usize) {
        (self.width.into(), self.height.into())
    }

    pub fn luma(&self) -> usize {
        let (width, height) = self.sides();
        width * height
    }

    pub fn chroma(&self) -> usize {
        let (width, height) = self.sides();
        width.div_ceil(2) * height.div_ceil(2)
    }

    /// Macroblocks in a row.
    pub fn columns(&self) -> usize {
        self.sides().0.div_ceil(16)
    }

    pub fn macroblocks(&self) -> usize {
        self.columns() * self.sides().1.div_ceil(16)
    }
}
