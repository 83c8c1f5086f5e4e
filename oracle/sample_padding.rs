//! Stands in for a module that scan.rs names for arbitrary shapes, which are not compared.

#[derive(Debug, Clone, Copy)]
pub enum SamplePresence {}

impl SamplePresence {
    pub fn is_opaque(self) -> bool {
        match self {}
    }
}
