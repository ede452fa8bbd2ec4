//! Rescues of damaged journals: planted slips and other mistakes, each of which the comparison finds.

use harness::rescue::{compare_edition, compare_rescues, unlawful};
use journal::{header, journal, session, HEADER_SIZE, LATEST};
use plain::rescue::{Rescuer, Slip, SLIPS};
use side::{Rescue, Rescued, Room};

type Answer = Result<Rescued, u64>;

/// A rescue with a mistake.
struct Mistaken(fn(&[u8], Room) -> Answer);

impl Rescue for Mistaken {
    fn rescue(&mut self, journal: &[u8], room: Room) -> Answer {
        (self.0)(journal, room)
    }
}

fn plainly(journal: &[u8], room: Room) -> Answer {
    Rescuer::default().rescue(journal, room)
}

/// The difference that is found in damaged journals of an edition, none of them the sample's.
fn found(other: &mut dyn Rescue, edition: u64, count: u64) -> Option<String> {
    compare_edition(other, &[], edition, 1, count).err()
}

fn is_found(slip: Slip) {
    for edition in 1..=LATEST {
        let text = found(&mut Rescuer::with_slip(Some(slip)), edition, 2_000);
        let text = text.unwrap_or_else(|| panic!("{slip:?} is not found in edition {edition}"));
        let lines: Vec<_> = text.lines().collect();
        assert_eq!(lines.len(), 3, "{text}");
        assert!(lines[0].len() < 300, "{slip:?} is shown by a long journal: {:.300}", lines[0]);
    }
}

#[test]
fn a_record_judged_by_its_tag_alone_is_found() {
    is_found(Slip::ByTag);
}

#[test]
fn going_on_after_one_byte_is_found() {
    is_found(Slip::GoesOn);
}

#[test]
fn a_kept_record_in_the_report_is_found() {
    is_found(Slip::KeptReported);
}

/// A kept record, a dropped one, a kept one and a length that runs past the end, before which a record
/// hides.
fn damaged(edition: u64) -> Vec<u8> {
    let kept = |index| journal(edition, &session()[index..=index])[HEADER_SIZE..].to_vec();
    let (dropped, past) = ([0x21, 0, 0].to_vec(), [0xFF, 0xFF, 0xFF].to_vec());
    let records = [kept(0), dropped, kept(1), past, kept(2)];
    [header(edition).to_vec(), records.concat()].concat()
}

#[test]
fn the_laws_hold_of_the_plain_rescue_and_of_no_slip() {
    for edition in 1..=LATEST {
        let bytes = damaged(edition);
        let lawful = |slip| unlawful(&bytes, Rescuer::with_slip(slip).saved(&bytes).as_ref());
        assert_eq!(lawful(None), None);
        for slip in SLIPS {
            assert!(lawful(Some(slip)).is_some(), "{slip:?}");
        }
        assert!(unlawful(&bytes, None).is_some());
        assert!(unlawful(&bytes[1..], Rescuer::default().saved(&bytes).as_ref()).is_some());
    }
}

/// Another clean journal, report or number of bytes left is not lawful.
#[test]
fn the_laws_leave_one_thing_to_save() {
    let bytes = damaged(LATEST);
    let saved = Rescuer::default().saved(&bytes).expect("a good header");
    let mut others = vec![saved.clone(); 5];
    others[0].clean.truncate(30);
    others[1].clean[20] ^= 1;
    others[2].dropped.clear();
    others[3].dropped[0] += 1;
    others[4].left += 1;
    // the kept records in the other order
    let (first, second) = (saved.clean[5..30].to_vec(), saved.clean[30..55].to_vec());
    let clean = [header(LATEST).to_vec(), second, first].concat();
    others.push(Rescued { clean, ..saved.clone() });
    // all is left, or dropped as one record
    let clean = header(LATEST).to_vec();
    let left = (bytes.len() - clean.len()) as u64;
    others.push(Rescued { clean, dropped: Vec::new(), left });
    assert_eq!(unlawful(&bytes, Some(&saved)), None);
    for other in others {
        assert!(unlawful(&bytes, Some(&other)).is_some(), "{other:?}");
    }
}

fn room_comes_first(journal: &[u8], room: Room) -> Answer {
    if room.output < journal.len() {
        return Err(14);
    }
    plainly(journal, room)
}

/// The output need hold only what is saved.
fn a_short_output_is_enough(journal: &[u8], room: Room) -> Answer {
    let saved = plainly(journal, Room { output: journal.len(), ..room })?;
    if saved.clean.len() <= room.output {
        Ok(saved)
    } else {
        Err(14)
    }
}

fn one_number_more_is_needed(journal: &[u8], room: Room) -> Answer {
    plainly(journal, Room { report: room.report.saturating_sub(1), ..room })
}

fn the_report_is_cut(journal: &[u8], room: Room) -> Answer {
    let mut saved = plainly(journal, Room { report: usize::MAX, ..room })?;
    saved.dropped.truncate(room.report);
    Ok(saved)
}

/// Judged by the latest edition, whatever the header says.
fn editions_are_one(journal: &[u8], room: Room) -> Answer {
    let saved = plainly(journal, room)?;
    let latest = [header(LATEST).as_slice(), &journal[HEADER_SIZE..]].concat();
    let mut other = plainly(&latest, room).unwrap_or(saved.clone());
    other.clean[..HEADER_SIZE].copy_from_slice(&saved.clean[..HEADER_SIZE]);
    Ok(other)
}

/// The edition is the last byte alone.
fn editions_are_cut(journal: &[u8], room: Room) -> Answer {
    match *journal {
        [0x10, 0, 2, _, low, ref records @ ..] => {
            plainly(&[&header(low.into()), records].concat(), room)
        }
        _ => plainly(journal, room),
    }
}

/// A record that ends with the journal counts as cut.
fn the_last_is_left(journal: &[u8], room: Room) -> Answer {
    let saved = plainly(journal, room)?;
    match saved.dropped.last() {
        Some(last) if saved.left == 0 && journal.ends_with(&[0, 0]) => {
            let (left, mut dropped) = (journal.len() as u64 - last, saved.dropped.clone());
            dropped.pop();
            Ok(Rescued { dropped, left, ..saved })
        }
        _ => Ok(saved),
    }
}

/// An unknown tag stops the reading.
fn unknown_tags_stop(journal: &[u8], room: Room) -> Answer {
    let saved = plainly(journal, room)?;
    let unknown = |at: &u64| journal::listed(LATEST, journal[*at as usize]).is_none();
    match saved.dropped.iter().position(unknown) {
        Some(index) => {
            let at = saved.dropped[index] as usize;
            let before = plainly(&journal[..at], Room { output: at, ..room })?;
            Ok(Rescued { left: (journal.len() - at) as u64, ..before })
        }
        None => Ok(saved),
    }
}

/// Offsets are counted from the first record.
fn offsets_are_of_records(journal: &[u8], room: Room) -> Answer {
    let mut saved = plainly(journal, room)?;
    saved.dropped.iter_mut().for_each(|offset| *offset -= HEADER_SIZE as u64);
    Ok(saved)
}

fn the_header_is_left_out(journal: &[u8], room: Room) -> Answer {
    let mut saved = plainly(journal, room)?;
    saved.clean.drain(..HEADER_SIZE);
    Ok(saved)
}

/// Each with the editions in which it can show.
#[test]
fn every_other_mistake_is_found() {
    let (all, before) = (1..=LATEST, 1..=4);
    let mistakes = [
        (Mistaken(room_comes_first), all.clone()),
        (Mistaken(a_short_output_is_enough), all.clone()),
        (Mistaken(one_number_more_is_needed), all.clone()),
        (Mistaken(the_report_is_cut), all.clone()),
        (Mistaken(editions_are_one), before),
        (Mistaken(editions_are_cut), all.clone()),
        (Mistaken(the_last_is_left), all.clone()),
        (Mistaken(unknown_tags_stop), all.clone()),
        (Mistaken(offsets_are_of_records), all.clone()),
        (Mistaken(the_header_is_left_out), all),
    ];
    for (number, (mut mistake, editions)) in mistakes.into_iter().enumerate() {
        for edition in editions {
            assert!(found(&mut mistake, edition, 2_000).is_some(), "{number}, edition {edition}");
        }
    }
}

/// The plain rescue beside itself: every answer is met, and so many damages are tried.
#[test]
fn a_short_comparison_finds_no_difference() {
    let plain = || Ok(Box::new(Mistaken(plainly)) as Box<dyn Rescue>);
    let counts = compare_rescues(&plain, 2, 3_003).expect("no difference");
    assert!(counts.columns().iter().all(|times| *times > 50), "{counts}");
    let fewer = compare_rescues(&plain, 2, 0).expect("no difference");
    assert_eq!(counts.sum() - fewer.sum(), 3_003);
}

/// No edition goes uncompared: neither where a side cannot be started nor where it breaks off.
#[test]
fn every_edition_is_compared() {
    assert!(compare_rescues(&|| Err("not started".to_string()), 1, 10).is_err());
    let breaks_off = || {
        let latest = |journal: &[u8], room| match journal.get(4) {
            Some(edition) if u64::from(*edition) == LATEST => panic!("no answer"),
            _ => plainly(journal, room),
        };
        Ok(Box::new(Mistaken(latest)) as Box<dyn Rescue>)
    };
    assert!(compare_rescues(&breaks_off, 1, 10).is_err());
}
