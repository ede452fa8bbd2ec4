//! Spoiled snapshots of any book: numbers that a column cannot hold, fields that are missing, twice
//! or in another's place, other editions, and wounds of bytes.

use plain::snapshot::write;
use side::{Book, Side};

use super::expected::Expected;
use super::{without_edition, FIELD};
use crate::chance::Chance;
use crate::damage::wound;

/// Editions that there are, neighbours of them and numbers that are one in fewer bits.
const EDITIONS: [u64; 13] =
    [0, 1, 2, 3, 4, 5, 6, 256 + 3, (1 << 16) + 4, (1 << 32) + 1, (1 << 32) + 4, 1 << 63, u64::MAX];

/// Numbers at and past the ends of the columns' types, ranges and limits.
const NUMBERS: [u64; 24] = [
    0,
    1,
    2,
    3,
    5,
    6,
    12,
    13,
    16,
    17,
    64,
    65,
    1_200,
    1_201,
    10_001,
    86_399,
    1_000_001,
    u32::MAX as u64,
    1 << 32,
    1_000_000_000_001,
    4_000_000_000_000_001,
    i64::MAX as u64,
    1 << 63,
    u64::MAX,
];

/// Reads so many spoiled snapshots of a book on both sides; `Err` says how they differ.
pub fn compare_spoiled(
    other: &mut dyn Side,
    chance: &mut Chance,
    book: &Book,
    times: usize,
) -> Result<(), String> {
    let bytes = write(book).map_err(|number| format!("a book is not written: {number}"))?;
    let mut expected = Expected::default();
    expected.take(bytes.clone())?.map_err(|refusal| format!("no snapshot: {refusal:?}"))?;
    for _ in 0..times {
        let _ = expected.take(spoiled(chance, &bytes))?;
    }
    expected.compare(other)
}

fn spoiled(chance: &mut Chance, bytes: &[u8]) -> Vec<u8> {
    let mut fields: Vec<_> = bytes.chunks(FIELD).map(<[u8]>::to_vec).collect();
    let place = |chance: &mut Chance| chance.below((bytes.len() / FIELD) as u64) as usize;
    let (at, to) = (place(chance), place(chance));
    match chance.below(10) {
        0 => drop(fields.remove(at)),
        1 => fields.insert(at, fields[to].clone()),
        2 => fields.swap(at, to),
        3 => {
            let mut bytes = bytes.to_vec();
            wound(chance, &mut bytes);
            return bytes;
        }
        4 => fields[at][3..].copy_from_slice(&bytes[FIELD * to + 3..FIELD * to + FIELD]),
        5 => return without_edition(bytes).to_vec(),
        6 => fields[0][3..].copy_from_slice(&chance.pick(&EDITIONS).to_be_bytes()),
        _ => fields[at][3..].copy_from_slice(&chance.pick(&NUMBERS).to_be_bytes()),
    }
    fields.concat()
}
