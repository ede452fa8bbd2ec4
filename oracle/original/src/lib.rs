//! The original contract, compiled from its published text.
//!
//! `build.rs` checks the text's sha256, copies it to the build folder byte for byte and writes the
//! one `mod` line that is included here. Nothing is dropped: in a module the text's inner attribute
//! `no_std` has no effect (this crate carries it instead), and for its two `#[cfg(test)]` modules,
//! which are not published with it, stand empty files.
#![no_std]

include!(concat!(env!("OUT_DIR"), "/module.rs"));

pub use financing::*;

/// The text itself, from which the coverage table takes the lines that can refuse.
pub const TEXT: &str = include_str!(concat!(env!("OUT_DIR"), "/financing.rs"));
