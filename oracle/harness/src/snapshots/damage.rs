//! Every single damage of a snapshot: each byte replaced by each other value, each cut, one byte
//! more at each place.

use plain::snapshot::Refusal;
use side::{Book, Side};

use super::expected::Expected;
use super::samples::{samples, Sample};

/// So many damaged snapshots are read before the answers are compared.
const AT_ONCE: usize = 64;

const ANSWERS: usize = 4;
const HEAD: [&str; ANSWERS] = ["0", "13", "15 at once", "15 at the end"];
const DAMAGES: [&str; 3] = ["replaced", "cut", "one more"];

/// How often each damage got each answer.
#[derive(Clone, Debug, Default, PartialEq, Eq)]
pub struct Counts([[u64; ANSWERS]; DAMAGES.len()]);

impl Counts {
    /// The number of damages.
    pub fn sum(&self) -> u64 {
        self.0.iter().flatten().sum()
    }

    fn add(&mut self, damage: usize, read: &Result<Book, Refusal>) {
        let answer = match read {
            Ok(_) => 0,
            Err(Refusal::Malformed(_)) => 1,
            Err(Refusal::TooMany) => 2,
            Err(Refusal::Unsound) => 3,
        };
        self.0[damage][answer] += 1;
    }
}

/// A line of each damage.
impl std::fmt::Display for Counts {
    fn fmt(&self, out: &mut std::fmt::Formatter) -> std::fmt::Result {
        let [first, second, third, fourth] = HEAD;
        writeln!(out, "{:10}{first:>9}{second:>9}{third:>12}{fourth:>15}", "")?;
        for (name, [first, second, third, fourth]) in DAMAGES.iter().zip(self.0) {
            writeln!(out, "{name:10}{first:>9}{second:>9}{third:>12}{fourth:>15}")?;
        }
        Ok(())
    }
}

/// Starts a side.
pub type Start<'a> = &'a (dyn Fn() -> Result<Box<dyn Side>, String> + Sync);

/// Damages the four samples, each beside a side of its own and at the same time.
pub fn compare_samples(start: Start, one_in: usize) -> Result<Vec<(Sample, Counts)>, String> {
    let damaged = |sample: Sample| {
        let counts = compare_damaged(&mut *start()?, &sample.bytes, one_in)?;
        Ok((sample, counts))
    };
    std::thread::scope(|scope| {
        let runs = samples().map(|sample| scope.spawn(move || damaged(sample)));
        let ended = runs.map(|run| run.join().unwrap_or(Err("a side broke off".to_string())));
        ended.into_iter().collect()
    })
}

/// Reads one damage in so many of a snapshot with the plain reader and on the other side. The first
/// difference ends it.
pub fn compare_damaged(
    other: &mut dyn Side,
    snapshot: &[u8],
    one_in: usize,
) -> Result<Counts, String> {
    let (mut counts, mut expected) = (Counts::default(), Expected::default());
    expected.take(snapshot.to_vec())?.map_err(|refusal| format!("no snapshot: {refusal:?}"))?;
    for (damage, bytes) in damages(snapshot).step_by(one_in) {
        counts.add(damage, &expected.take(bytes)?);
        if expected.len() == AT_ONCE {
            expected.compare(other)?;
        }
    }
    expected.compare(other)?;
    Ok(counts)
}

/// Damaged snapshots, each with its kind.
fn damages(bytes: &[u8]) -> impl Iterator<Item = (usize, Vec<u8>)> + '_ {
    let places = 0..bytes.len();
    let replaced =
        places.clone().flat_map(move |at| (1..=255).map(move |by| replaced(bytes, at, by)));
    let cut = places.clone().map(|length| bytes[..length].to_vec());
    let more = places.flat_map(|at| [one_more(bytes, at, 0), one_more(bytes, at, bytes[at])]);
    let after = [0, bytes[0]].map(|byte| one_more(bytes, bytes.len(), byte));
    let more = more.chain(after);
    replaced
        .map(|bytes| (0, bytes))
        .chain(cut.map(|bytes| (1, bytes)))
        .chain(more.map(|bytes| (2, bytes)))
}

fn replaced(bytes: &[u8], at: usize, by: u8) -> Vec<u8> {
    let mut bytes = bytes.to_vec();
    bytes[at] ^= by;
    bytes
}

fn one_more(bytes: &[u8], at: usize, byte: u8) -> Vec<u8> {
    let mut bytes = bytes.to_vec();
    bytes.insert(at, byte);
    bytes
}
