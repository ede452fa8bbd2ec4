//! The rescue of a damaged journal, read from documents 01 and 02 alone: of the journal crate it uses
//! the table of fields, and walks the bytes by itself.

use side::{Rescue, Rescued, Room};

use crate::{edition, MALFORMED, SHORT};

const HEADER: usize = 5;
/// A record's tag and outer length.
const FRONT: usize = 3;
/// A tag, a length and eight bytes.
const FIELD: usize = 11;

/// Mistakes that can be planted, to see that the comparison finds each.
#[derive(Clone, Copy, Debug, PartialEq, Eq)]
pub enum Slip {
    /// A record is kept for its outer tag alone, whatever is inside.
    ByTag,
    /// Where reading should stop it skips one byte and goes on.
    GoesOn,
    /// The report has the kept records too.
    KeptReported,
}

pub const SLIPS: [Slip; 3] = [Slip::ByTag, Slip::GoesOn, Slip::KeptReported];

/// The rescue, with a slip or without.
#[derive(Clone, Copy, Debug, Default)]
pub struct Rescuer {
    slip: Option<Slip>,
}

impl Rescue for Rescuer {
    fn rescue(&mut self, journal: &[u8], room: Room) -> Result<Rescued, u64> {
        let rescued = self.saved(journal).ok_or(MALFORMED)?;
        if room.output < journal.len() || room.report < rescued.dropped.len() {
            return Err(SHORT);
        }
        Ok(rescued)
    }
}

impl Rescuer {
    pub fn with_slip(slip: Option<Slip>) -> Rescuer {
        Rescuer { slip }
    }

    /// What is saved where there is room for it; nothing where the header is bad.
    pub fn saved(&self, journal: &[u8]) -> Option<Rescued> {
        let edition = edition_of(journal)?;
        let mut rescued = Rescued { clean: journal[..HEADER].to_vec(), ..Rescued::default() };
        let mut at = HEADER;
        while at < journal.len() {
            if let Some(end) = end_of(journal, at) {
                self.take(edition, &journal[at..end], at, &mut rescued);
                at = end;
            } else if self.slips(Slip::GoesOn) {
                rescued.left += 1;
                at += 1;
            } else {
                rescued.left = (journal.len() - at) as u64;
                break;
            }
        }
        Some(rescued)
    }

    /// Keeps or drops the record that starts here.
    fn take(&self, edition: u64, record: &[u8], at: usize, rescued: &mut Rescued) {
        let kept = self.is_kept(edition, record);
        if kept {
            rescued.clean.extend(record);
        }
        if !kept || self.slips(Slip::KeptReported) {
            rescued.dropped.push(at as u64);
        }
    }

    fn is_kept(&self, edition: u64, record: &[u8]) -> bool {
        let Some(kind) = journal::listed(edition, record[0]) else { return false };
        self.slips(Slip::ByTag) || is_inside(&kind.fields(edition), &record[FRONT..])
    }

    fn slips(&self, slip: Slip) -> bool {
        self.slip == Some(slip)
    }
}

/// The edition that a header names: tag 10, length 2, an edition that there is.
fn edition_of(journal: &[u8]) -> Option<u64> {
    let [0x10, 0, 2, high, low, ..] = *journal else { return None };
    let edition = u64::from(high) << 8 | u64::from(low);
    edition::is_listed(edition).then_some(edition)
}

/// Where the record that starts here ends; nowhere if its outer length is cut or runs past the end.
fn end_of(journal: &[u8], at: usize) -> Option<usize> {
    let [_, high, low, ..] = journal[at..] else { return None };
    let end = at + FRONT + (usize::from(high) << 8 | usize::from(low));
    (end <= journal.len()).then_some(end)
}

/// Whether these bytes are the fields with these tags, one after the other, and nothing more.
fn is_inside(tags: &[u8], bytes: &[u8]) -> bool {
    let fields = bytes.chunks(FIELD);
    fields.len() == tags.len() && fields.zip(tags).all(|(field, tag)| is_field(*tag, field))
}

/// Whether these bytes are the field with this tag: eight bytes, in some fields the first four of them 0.
fn is_field(tag: u8, bytes: &[u8]) -> bool {
    let narrow = journal::NARROW.contains(&tag);
    match *bytes {
        [found, 0, 8, a, b, c, d, _, _, _, _] => {
            found == tag && (!narrow || [a, b, c, d] == [0; 4])
        }
        _ => false,
    }
}

#[cfg(test)]
mod tests {
    use journal::{header, journal, session, LATEST};

    use super::*;

    fn saved(journal: &[u8]) -> Rescued {
        Rescuer::default().saved(journal).expect("a good header")
    }

    fn rescued(clean: &[u8], dropped: &[u64], left: u64) -> Rescued {
        Rescued { clean: clean.to_vec(), dropped: dropped.to_vec(), left }
    }

    /// The session's records, each of a size of its own.
    fn records(edition: u64) -> Vec<Vec<u8>> {
        let record = |command| {
            let mut record = Vec::new();
            journal::write(edition, command, &mut record);
            record
        };
        session().iter().map(record).collect()
    }

    fn joined(edition: u64, records: &[Vec<u8>]) -> Vec<u8> {
        [header(edition).to_vec(), records.concat()].concat()
    }

    #[test]
    fn an_undamaged_journal_comes_out_unchanged() {
        for edition in 1..=LATEST {
            for bytes in [header(edition).to_vec(), journal(edition, &session())] {
                assert_eq!(saved(&bytes), rescued(&bytes, &[], 0));
            }
        }
    }

    #[test]
    fn headers() {
        let rescue = |bytes: &[u8]| Rescuer::default().rescue(bytes, Room::WIDEST);
        let records = records(1).concat();
        let bad: [&[u8]; 9] = [
            &[],
            &[0x10],
            &[0x10, 0, 2, 0],
            &[0x11, 0, 2, 0, 1],
            &[0x10, 1, 2, 0, 1],
            &[0x10, 0, 3, 0, 0, 1],
            &[0x10, 0, 2, 0, 0],
            &[0x10, 0, 2, 0, LATEST as u8 + 1],
            &[0x10, 0, 2, 1, 1],
        ];
        for header in bad {
            assert_eq!(rescue(header), Err(13), "{header:?}");
            assert_eq!(rescue(&[header, &records].concat()), Err(13), "{header:?}");
        }
        assert_eq!(rescue(&records), Err(13));
    }

    /// Each record in turn with one thing wrong inside, which leaves its length as it is.
    #[test]
    fn a_record_that_is_malformed_inside_is_dropped() {
        for edition in 1..=LATEST {
            let good = records(edition);
            for wrong in 0..good.len() {
                let at = joined(edition, &good[..wrong]).len() as u64;
                let kept = [&good[..wrong], &good[wrong + 1..]].concat();
                for (place, byte) in [(0, 0x28), (3, 0x02), (4, 1), (5, 7), (5, 9), (14, 0x0D)] {
                    let mut damaged = good.clone();
                    damaged[wrong][place] = byte;
                    let expected = rescued(&joined(edition, &kept), &[at], 0);
                    assert_eq!(saved(&joined(edition, &damaged)), expected);
                }
            }
        }
    }

    /// A create's rate, its sixth field.
    #[test]
    fn a_number_of_more_than_32_bits_is_dropped_where_document_01_says_so() {
        let mut records = records(1);
        let at = 3 + 5 * FIELD + 3;
        assert_eq!(records[5][at - 3..at], [0x06, 0, 8]);
        for (place, kept) in [(0, false), (3, false), (4, true), (7, true)] {
            let mut create = records[5].clone();
            create[at + place] = 0xFF;
            let bytes = [header(1).as_slice(), &create].concat();
            let dropped = rescued(&header(1), &[5], 0);
            assert_eq!(saved(&bytes), if kept { rescued(&bytes, &[], 0) } else { dropped });
        }
        // a deposit's amount has all its 64
        records[2][3 + 2 * FIELD + 3] = 0xFF;
        assert_eq!(saved(&joined(1, &records)), rescued(&joined(1, &records), &[], 0));
    }

    #[test]
    fn reading_stops_where_an_outer_length_runs_past_the_end() {
        let bytes = journal(1, &session());
        let ends: Vec<_> = (0..=10).map(|count| joined(1, &records(1)[..count]).len()).collect();
        for length in HEADER..=bytes.len() {
            let end = *ends.iter().rfind(|end| **end <= length).expect("the header's end");
            let expected = rescued(&bytes[..end], &[], (length - end) as u64);
            assert_eq!(saved(&bytes[..length]), expected);
        }
        // the third record is one byte longer by its length: what follows it is read from there on
        let mut longer = bytes.clone();
        longer[ends[2] + 2] += 1;
        let Rescued { clean, dropped, left } = saved(&longer);
        assert_eq!((clean, dropped[0]), (bytes[..ends[2]].to_vec(), ends[2] as u64));
        assert!(left > 0);
    }

    #[test]
    fn a_schedule_is_judged_by_the_journals_edition() {
        let record = |edition| {
            let numbers = [0; journal::TAGS];
            let command = journal::Command::of_numbers(0x38, &numbers).expect("a schedule");
            journal::journal(edition, &[command])[HEADER..].to_vec()
        };
        for edition in 1..=LATEST {
            for (of, kept) in [(4, edition < 5), (5, edition >= 5)] {
                let bytes = [header(edition).as_slice(), &record(of)].concat();
                let dropped = rescued(&header(edition), &[5], 0);
                assert_eq!(saved(&bytes), if kept { rescued(&bytes, &[], 0) } else { dropped });
            }
        }
    }

    /// A record without fields, and one of the longest, of which every byte is there or not.
    #[test]
    fn unknown_tags_are_dropped_where_their_length_fits() {
        let dense: Vec<_> = (0..=255).flat_map(|tag| [tag, 0, 0]).collect();
        let offsets: Vec<_> = (0..256).map(|number| 5 + 3 * number).collect();
        let bytes = [header(1).as_slice(), &dense].concat();
        assert_eq!(saved(&bytes), rescued(&header(1), &offsets, 0));
        let longest = [header(1).as_slice(), &[0x20, 0xFF, 0xFF], &[0; 65_535]].concat();
        assert_eq!(saved(&longest), rescued(&header(1), &[5], 0));
        let cut = &longest[..longest.len() - 1];
        assert_eq!(saved(cut), rescued(&header(1), &[], 3 + 65_534));
    }

    /// 13 comes first, then 14: the output is as long as the journal even where less is saved.
    #[test]
    fn rooms() {
        let good = journal(2, &session());
        let bytes = [good.as_slice(), &[0x20, 0, 0, 0x21, 0, 0, 0xFF]].concat();
        let rescue = |bytes: &[u8], output, report| {
            Rescuer::default().rescue(bytes, Room { output, report })
        };
        let dropped = [good.len() as u64, good.len() as u64 + 3];
        assert_eq!(rescue(&bytes, bytes.len(), 2), Ok(rescued(&good, &dropped, 1)));
        assert_eq!(rescue(&bytes, bytes.len() - 1, 2), Err(14));
        assert_eq!(rescue(&bytes, bytes.len(), 1), Err(14));
        assert_eq!(rescue(&good, good.len(), 0), Ok(rescued(&good, &[], 0)));
        assert_eq!(rescue(&good[1..], 0, 0), Err(13));
    }

    #[test]
    fn slips() {
        let good = journal(1, &session()[..1]);
        let bytes = [good.as_slice(), &[0x21, 0, 0, 0xFF, 0x21, 0, 0]].concat();
        let dropped = good.len() as u64;
        let saved = |slip| Rescuer::with_slip(slip).saved(&bytes).expect("a good header");
        assert_eq!(saved(None), rescued(&good, &[dropped], 4));
        assert_eq!(saved(Some(Slip::ByTag)), rescued(&bytes[..good.len() + 3], &[], 4));
        assert_eq!(saved(Some(Slip::GoesOn)), rescued(&good, &[dropped, dropped + 4], 1));
        assert_eq!(saved(Some(Slip::KeptReported)), rescued(&good, &[5, dropped], 4));
    }
}
