//! Editions: which there are, and which fields the commands of each have.

use crate::number::tag_of;

/// The latest edition; a header that names another than 1 to this one is bad.
pub const LATEST: u64 = 5;

/// The edition from which on a command has a field. A command is there where its time is.
pub(crate) fn since(command: u8, field: u8) -> u64 {
    match (command, field) {
        (SCHEDULE, KIND) => 5,
        _ => 1,
    }
}

const SCHEDULE: u8 = 0x38;
const KIND: u8 = tag_of!(kind);
