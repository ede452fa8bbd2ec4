//! Both sides' rescues of the same journals, the laws on the plain one's.

use journal::{HEADER_SIZE, LATEST};
use plain::rescue::Rescuer;
use side::{Rescue, Rescued, Room};

use super::counts::Counts;
use super::damage::SORTS;
use super::extremes::extremes;
use super::laws::{is_unchanged, record_at, unlawful};
use super::room::Lent;
use super::source::Source;
use crate::chance::Chance;
use crate::reference::read_as;
use crate::vectors::samples;

/// Starts a side.
pub type Start<'a> = &'a (dyn Fn() -> Result<Box<dyn Rescue>, String> + Sync);

/// So many shorter journals are tried twice, to cut a difference down.
const TRIES: usize = 4_000;

/// Rescues so many damaged journals, each edition's beside a side of its own and at the same time.
pub fn compare_rescues(start: Start, seed: u64, count: u64) -> Result<Counts, String> {
    let samples: Vec<_> = samples().into_iter().map(|sample| sample.bytes).collect();
    let samples = samples.as_slice();
    let of_edition = |edition: u64| {
        let count = count / LATEST + u64::from(edition <= count % LATEST);
        compare_edition(&mut *start()?, samples, edition, seed, count)
    };
    let of_edition = &of_edition;
    let counted: Vec<_> = std::thread::scope(|scope| {
        let run = |edition| scope.spawn(move || of_edition(edition));
        let runs: Vec<_> = (1..=LATEST).map(run).collect();
        let ended = runs.into_iter().map(|run| run.join());
        ended.map(|ended| ended.unwrap_or(Err("a side broke off".to_string()))).collect()
    });
    let mut all = Counts::default();
    counted.into_iter().try_for_each(|counts| counts.map(|counts| all.join(counts)))?;
    Ok(all)
}

/// Rescues the sample's journals of an edition, so many damaged ones and the extremes. The first
/// difference ends it.
pub fn compare_edition(
    other: &mut dyn Rescue,
    samples: &[Vec<u8>],
    edition: u64,
    seed: u64,
    count: u64,
) -> Result<Counts, String> {
    let mut pair = Pair { other, counts: Counts::default() };
    for bytes in samples.iter().filter(|bytes| read_as(bytes) == edition) {
        pair.compare("the sample", bytes, Lent::Widest)?;
    }
    let mut chance = Chance::new(seed.wrapping_mul(0x9E37_79B9).wrapping_add(edition));
    let mut source = Source::new(edition, samples);
    for (sort, damage) in SORTS.iter().cycle().take(count as usize) {
        let commands = source.next(&mut chance);
        let mut bytes = damage(&mut chance, edition, commands);
        bytes.truncate(Room::WIDEST.output);
        pair.compare(sort, &bytes, Lent::some(&mut chance))?;
    }
    for bytes in extremes(edition) {
        Lent::ALL.iter().try_for_each(|lent| pair.compare("extremes", &bytes, *lent))?;
    }
    Ok(pair.counts)
}

/// The plain rescue and another.
struct Pair<'a> {
    other: &'a mut dyn Rescue,
    counts: Counts,
}

/// What both give.
type Answers = [Result<Rescued, u64>; 2];

impl Pair<'_> {
    fn compare(&mut self, sort: &'static str, bytes: &[u8], lent: Lent) -> Result<(), String> {
        if let Some(wrong) = wrong_plainly(bytes) {
            return Err(format!("the plain rescue, {sort}: {wrong}: {}", hex(bytes)));
        }
        let [one, two] = self.answers(bytes, lent);
        if one != two {
            return Err(self.told(sort, bytes, lent));
        }
        self.counts.add(sort, &one);
        Ok(())
    }

    fn answers(&mut self, bytes: &[u8], lent: Lent) -> Answers {
        let mut plain = Rescuer::default();
        let dropped = plain.saved(bytes).map_or(0, |saved| saved.dropped.len());
        let room = lent.room(bytes.len(), dropped);
        [plain.rescue(bytes, room), self.other.rescue(bytes, room)]
    }

    /// A difference, cut down.
    fn told(&mut self, sort: &str, bytes: &[u8], lent: Lent) -> String {
        let bytes = self.shortest(bytes, lent);
        let [one, two] = self.answers(&bytes, lent).map(|answer| shown(&answer));
        let read = "a journal is rescued differently";
        let what = format!("{sort}, room {lent:?}, {} bytes", bytes.len());
        format!("{read} ({what}): {}\nthe plain rescue: {one}\nthe other: {two}", hex(&bytes))
    }

    /// The journal without the records, then without the bytes that the difference does not need.
    fn shortest(&mut self, bytes: &[u8], lent: Lent) -> Vec<u8> {
        let bytes = self.needed(pieces(bytes), lent);
        self.needed(bytes.chunks(1).collect(), lent)
    }

    /// The pieces of a journal that a difference needs; long runs are left out first.
    fn needed(&mut self, mut pieces: Vec<&[u8]>, lent: Lent) -> Vec<u8> {
        let (mut length, mut tries) = (pieces.len().div_ceil(2), 0);
        while length > 0 {
            let mut at = 0;
            while at + length <= pieces.len() && tries < TRIES {
                let fewer = [&pieces[..at], &pieces[at + length..]].concat();
                let [one, two] = self.answers(&fewer.concat(), lent);
                if one != two {
                    pieces = fewer;
                } else {
                    at += length;
                }
                tries += 1;
            }
            length /= 2;
        }
        pieces.concat()
    }
}

/// A journal's header, its records and what is left.
fn pieces(bytes: &[u8]) -> Vec<&[u8]> {
    let (header, mut rest) = bytes.split_at(HEADER_SIZE.min(bytes.len()));
    let mut pieces = vec![header];
    while let Some(record) = record_at(rest, 0) {
        pieces.push(&rest[record.clone()]);
        rest = &rest[record.end..];
    }
    pieces.push(rest);
    pieces
}

/// What is wrong with the plain rescue of a journal, if anything is. What it saves it saves again.
fn wrong_plainly(bytes: &[u8]) -> Option<&'static str> {
    let saved = Rescuer::default().saved(bytes);
    unlawful(bytes, saved.as_ref()).or_else(|| {
        let saved = saved?;
        let again = Rescuer::default().saved(&saved.clean);
        let same = again.is_some_and(|again| is_unchanged(&saved.clean, &again));
        (!same).then_some("the clean journal is not saved unchanged")
    })
}

fn shown(answer: &Result<Rescued, u64>) -> String {
    match answer {
        Err(number) => number.to_string(),
        Ok(Rescued { clean, dropped, left }) => {
            format!("0, {}, dropped {dropped:?}, left {left}", hex(clean))
        }
    }
}

fn hex(bytes: &[u8]) -> String {
    bytes.iter().map(|byte| format!("{byte:02x}")).collect()
}
