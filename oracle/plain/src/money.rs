//! The ranges of document 01's table, and totals moved by a difference.

use crate::Test;

pub const OFFERED: std::ops::RangeInclusive<i64> = 1..=1_000_000_000_000;
pub const HELD: std::ops::RangeInclusive<i64> = 0..=4_000_000_000_000_000;
pub const MOST_COUNTED: u64 = 1_000_000;
pub const MOST_ROWS: usize = 64;

/// The total moved by a signed difference, or 11.
pub fn moved(total: i64, difference: i128) -> Test<i64> {
    let sum = i128::from(total) + difference;
    let sum = i64::try_from(sum).map_err(|_| 11u64)?;
    HELD.contains(&sum).then_some(sum).ok_or(11)
}

/// The count grown by some, or 11.
pub fn grown(count: u64, by: u64) -> Test<u64> {
    let sum = count + by;
    (sum <= MOST_COUNTED).then_some(sum).ok_or(11)
}
