//! The prediction of a macroblock as the original reconstruct.rs has it. The file names a module
//! that is not among the originals, so it cannot be compiled whole: the Makefile cuts the type and
//! its two sides out of it, unchanged.

include!("reconstruct_cut.rs");
