//! The types that the originals name from a module that is not among them. `AcEvent` has the fields
//! that the originals give it.

/// Named by functions for intra blocks, which are not compared.
#[derive(Debug, Clone, Copy, PartialEq, Eq)]
pub enum DcComponent {}

#[derive(Debug, Clone, Copy, PartialEq, Eq)]
pub struct AcEvent {
    pub last: bool,
    pub run: u32,
    pub level: i32,
}
