//! broodline twice: the program, run as a process of its own, and what it is to print, put together
//! of the originals.

mod header;
mod plain;
mod program;

pub use header::{Header, HEADER, NUMBERS};
pub use plain::{play, Clip, PREDICTION};
pub use program::{Program, Ran};
