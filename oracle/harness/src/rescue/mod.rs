//! Damaged journals: what the plain rescue saves of each against what another side does.

mod compare;
mod counts;
mod damage;
mod extremes;
mod laws;
mod room;
mod source;

pub use compare::{compare_edition, compare_rescues, Start};
pub use counts::Counts;
pub use laws::unlawful;
