//! The comparison of a side of the book with the original, in later editions with the plain model.

pub mod chance;
pub mod compare;
pub mod coverage;
pub mod damage;
pub mod generate;
pub mod given;
pub mod pair;
pub mod questions;
pub mod reference;
pub mod rescue;
pub mod script;
pub mod shrink;
pub mod snapshots;
pub mod vectors;
