//! `MotionVector` with the fields that the original motion.rs gives it. That file names modules
//! that are not among the originals, so it cannot be compiled whole.

#[derive(Debug, Clone, Copy, PartialEq, Eq)]
pub struct MotionVector {
    pub x: i32,
    pub y: i32,
}
