//! What document 02 says of every rescue, tested by the journal crate's reading.

use std::ops::Range;

use journal::{edition_of, read, Step, HEADER_SIZE};
use side::Rescued;

/// What holds of the rescue of a journal of an edition.
type Law = fn(u64, &[u8], &Rescued) -> bool;

/// Each with what is wrong where it does not hold. Together they leave one thing to save.
const LAWS: [(Law, &str); 6] = [
    (adds_up, "header, kept, dropped and left bytes are not as many as the journal's"),
    (is_the_rest, "the clean journal is not what the others leave of the journal"),
    (all_kept_decode, "a kept record is malformed"),
    (no_dropped_decodes, "a dropped record is well formed"),
    (stops_rightly, "reading stops where an outer length fits"),
    (keeps_the_undamaged, "an undamaged journal is changed"),
];

/// What is wrong with a rescue of a journal, if anything is.
pub fn unlawful(journal: &[u8], saved: Option<&Rescued>) -> Option<&'static str> {
    match (edition_of(journal), saved) {
        (Some(edition), Some(saved)) => {
            LAWS.iter().find(|(law, _)| !law(edition, journal, saved)).map(|(_, wrong)| *wrong)
        }
        (Some(_), None) => Some("a good header is refused"),
        (None, Some(_)) => Some("a bad header is taken"),
        (None, None) => None,
    }
}

/// Whether a rescue leaves a journal as it is, with an empty report.
pub fn is_unchanged(journal: &[u8], saved: &Rescued) -> bool {
    saved.clean == journal && saved.dropped.is_empty() && saved.left == 0
}

/// The record at an offset, if its outer length is there and fits.
pub fn record_at(journal: &[u8], at: usize) -> Option<Range<usize>> {
    let length = journal.get(at + 1..at + 3)?.try_into().ok()?;
    let end = at + 3 + usize::from(u16::from_be_bytes(length));
    (end <= journal.len()).then_some(at..end)
}

fn dropped_records(journal: &[u8], saved: &Rescued) -> Option<Vec<Range<usize>>> {
    saved.dropped.iter().map(|offset| record_at(journal, *offset as usize)).collect()
}

fn adds_up(_: u64, journal: &[u8], saved: &Rescued) -> bool {
    let dropped = dropped_records(journal, saved).unwrap_or_default();
    let dropped: usize = dropped.iter().map(Range::len).sum();
    saved.clean.len() + dropped + saved.left as usize == journal.len()
}

/// The stretches of kept records: before, between and after the dropped ones.
fn stretches(journal: &[u8], saved: &Rescued) -> Option<Vec<Range<usize>>> {
    let (mut stretches, mut at) = (Vec::new(), HEADER_SIZE);
    let stop = journal.len().checked_sub(saved.left as usize)?;
    for dropped in dropped_records(journal, saved)? {
        stretches.push(at..dropped.start);
        at = dropped.end;
    }
    stretches.push(at..stop);
    stretches.iter().all(|stretch| stretch.start <= stretch.end).then_some(stretches)
}

fn is_the_rest(_: u64, journal: &[u8], saved: &Rescued) -> bool {
    stretches(journal, saved).is_some_and(|stretches| {
        let kept = stretches.into_iter().flat_map(|stretch| &journal[stretch]);
        saved.clean.iter().eq(journal[..HEADER_SIZE].iter().chain(kept))
    })
}

/// Whether the records from here on are well formed, and the last ends there.
fn decode(edition: u64, journal: &[u8], stretch: Range<usize>) -> bool {
    let mut at = stretch.start;
    while at < stretch.end {
        let Step::Command(_, next) = read(edition, journal, at) else { return false };
        at = next;
    }
    at == stretch.end
}

fn all_kept_decode(edition: u64, journal: &[u8], saved: &Rescued) -> bool {
    let stretches = stretches(journal, saved).unwrap_or_default();
    stretches.into_iter().all(|stretch| decode(edition, journal, stretch))
        && decode(edition, &saved.clean, HEADER_SIZE..saved.clean.len())
}

fn no_dropped_decodes(edition: u64, journal: &[u8], saved: &Rescued) -> bool {
    let mut offsets = saved.dropped.iter().map(|offset| *offset as usize);
    offsets.all(|at| read(edition, journal, at) == Step::Malformed)
}

fn stops_rightly(_: u64, journal: &[u8], saved: &Rescued) -> bool {
    saved.left == 0 || record_at(journal, journal.len() - saved.left as usize).is_none()
}

fn keeps_the_undamaged(edition: u64, journal: &[u8], saved: &Rescued) -> bool {
    !decode(edition, journal, HEADER_SIZE..journal.len()) || is_unchanged(journal, saved)
}
