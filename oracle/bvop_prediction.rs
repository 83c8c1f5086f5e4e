//! The sample mode that the originals name from a module that is not among them: half, or quarter
//! with bits per pixel.

#[derive(Debug, Clone, Copy, PartialEq, Eq)]
pub enum BVopSampleMode {
    HalfPel,
    QuarterPel { bits_per_pixel: u32 },
}

impl BVopSampleMode {
    /// By its number: 0 half, 1 quarter.
    pub fn of(mode: u32, bits_per_pixel: u32) -> Self {
        match mode {
            0 => BVopSampleMode::HalfPel,
            _ => BVopSampleMode::QuarterPel { bits_per_pixel },
        }
    }
}
