//! Snapshots: what the plain reading writes and reads against another side's.

mod alike;
mod damage;
mod expected;
mod samples;
mod spoil;
mod unsound;

pub use alike::{old_form_alike, restored_alike, unsound_alike, written_alike, WIDE};
pub use damage::{compare_damaged, compare_samples, Counts};
pub use samples::{samples, Sample};
pub use spoil::compare_spoiled;

/// The bytes of a field.
const FIELD: usize = 11;

/// A snapshot without its first field, the edition: in the form from before there was one.
pub fn without_edition(snapshot: &[u8]) -> &[u8] {
    &snapshot[FIELD..]
}
