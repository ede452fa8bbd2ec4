//! Snapshots from Rust: a journal in two parts, with a snapshot between them, comes to what the whole journal comes to.

use solgaverna::{Journal, Refusal, Snapshot};
use std::fs;
use std::path::PathBuf;

/// Document 01's session in two parts, cut within the negotiation.
const BEFORE: &str = "\
open-account 100 1
open-account 100 2
deposit 100 1 5000
approve 100 1 5000
register 100 2 10 2000
create 100 1 20 10 1000 500 86400 0
counter 100 2 20 900 500 86400 0
";

const AFTER: &str = "\
amend 100 1 20 900 500 86400 0
amend 100 1 20 900 500 86400 1
accept 100 2 20
";

const LISTING: &str = "\
edition 3
1 3
2 0
3 7
account 1 4100 4100 900 900
account 2 900 0 0 0
totals 900 0 0
";

const FIELD: usize = 11;

fn journal(text: &str) -> Journal {
    let mut journal = Journal::of_edition(3).expect("edition 3");
    journal.write(text).expect("lines of commands");
    journal
}

fn before() -> Snapshot {
    journal(BEFORE).snapshot().expect("a whole journal")
}

fn stored(kind: &str) -> Vec<PathBuf> {
    let folder = fs::read_dir("../../cases/edition-3").expect("the stored cases");
    let names = folder.map(|file| file.expect("a file of the folder").path());
    names.filter(|name| name.extension().is_some_and(|it| it == kind)).collect()
}

fn read(name: &PathBuf) -> Journal {
    Journal::from(fs::read(name.with_extension("journal")).expect("a journal"))
}

/// A journal of edition 3 in two parts, and how many commands the first has.
fn halves(whole: &Journal, numerator: usize) -> (Journal, Journal, usize) {
    let text = whole.text().expect("a whole journal");
    let lines: Vec<_> = text.lines().skip(1).map(|line| format!("{line}\n")).collect();
    let at = lines.len() * numerator / 4;
    (journal(&lines[..at].concat()), journal(&lines[at..].concat()), at)
}

/// The listing of the whole without the answers of the first part: the others numbered from 1.
fn listing_past(listing: &str, passed: usize) -> String {
    let lines = listing.lines().filter_map(|line| {
        let (first, rest) = line.split_once(' ')?;
        match first.parse::<usize>() {
            Ok(number) if number <= passed => None,
            Ok(number) => Some(format!("{} {rest}\n", number - passed)),
            Err(_) => Some(format!("{line}\n")),
        }
    });
    lines.collect()
}

#[test]
fn the_session_goes_on_from_a_snapshot() {
    assert_eq!(before().listing(&journal(AFTER)).as_deref(), Ok(LISTING));
    let whole = journal(&format!("{BEFORE}{AFTER}"));
    assert_eq!(before().then(&journal(AFTER)), whole.snapshot());
    assert_eq!(listing_past(&whole.listing(), 7), LISTING);
    // settings, totals and counts, two accounts, an invoice, an offer, and a round before the cut and two after it
    assert_eq!(before().bytes().len(), FIELD * (14 + 2 * 8 + 4 + 17 + 5));
    assert_eq!(whole.snapshot().expect("a whole journal").bytes().len(), FIELD * (14 + 2 * 8 + 4 + 17 + 2 * 5));
}

#[test]
fn a_snapshot_is_read_back() {
    assert_eq!(before().then(&journal("")), Ok(before()));
    assert_eq!(journal("").snapshot().expect("no commands").bytes().len(), FIELD * 14);
    for name in stored("questions") {
        let kept = read(&name).snapshot().expect("a whole journal");
        assert_eq!(kept.then(&journal("")), Ok(kept.clone()), "{}", name.display());
    }
}

#[test]
fn stored_journals_go_on_from_a_snapshot() {
    let mut parts = 0;
    for name in stored("questions") {
        let whole = read(&name);
        let listing = fs::read_to_string(name.with_extension("listing")).expect("a listing");
        for numerator in 0..=4 {
            let (first, rest, passed) = halves(&whole, numerator);
            let kept = first.snapshot().expect("a whole journal");
            assert_eq!(kept.then(&rest), whole.snapshot(), "{}", name.display());
            assert_eq!(kept.listing(&rest), Ok(listing_past(&listing, passed)), "{}", name.display());
            parts += 1;
        }
    }
    assert!(parts >= 35, "{parts} journals in two parts");
}

#[test]
fn stored_questions_have_the_stored_answers() {
    for name in stored("questions") {
        let text = |kind| fs::read_to_string(name.with_extension(kind)).expect("a file of lines");
        for numerator in [1, 2, 3] {
            let (first, rest, _) = halves(&read(&name), numerator);
            let kept = first.snapshot().expect("a whole journal");
            assert_eq!(kept.ask(&rest, &text("questions")), Ok(text("answers")), "{}", name.display());
        }
    }
}

/// Each refusal of a snapshot, by every function.
fn refused(bytes: &[u8], refusal: Refusal) {
    let from = Snapshot::from(bytes.to_vec());
    assert_eq!(from.then(&journal(AFTER)), Err(refusal));
    assert_eq!(from.listing(&journal(AFTER)), Err(refusal));
    assert_eq!(from.ask(&journal(AFTER), "count\n"), Err(refusal));
    // before the journal's, and before that of a line that is no question
    let cut = Journal::from(vec![0x10, 0, 2, 0]);
    assert_eq!(from.then(&cut), Err(refusal));
    assert_eq!(from.listing(&cut), Err(refusal));
    if refusal.number() == 13 {
        assert_eq!(from.ask(&journal(AFTER), "counts\n"), Err(refusal));
    }
}

#[test]
fn damaged_bytes_are_refused_at_the_first_wrong_field() {
    let whole = before().bytes().to_vec();
    for at in 0..whole.len() {
        let field = at / FIELD * FIELD;
        // cut
        refused(&whole[..at], Refusal::Field(field as u64));
        // another tag, another length
        if at - field < 3 {
            let mut bytes = whole.clone();
            bytes[at] ^= 0x02;
            refused(&bytes, Refusal::Field(field as u64));
        }
    }
    let mut more = whole.clone();
    more.push(0);
    refused(&more, Refusal::Field(whole.len() as u64));
}

#[test]
fn an_unsound_book_is_refused() {
    // a window past its range, a balance below 0, ids that do not ascend
    for (at, byte) in [(FIELD + 3, 1), (FIELD * 13 + 3, 0x80), (FIELD * 12 + 3, 1)] {
        let mut bytes = before().bytes().to_vec();
        bytes[at] = byte;
        refused(&bytes, Refusal::Number(15));
    }
    // a count past its limit at once, whatever follows
    let mut bytes = before().bytes().to_vec();
    bytes[FIELD * 11 + 10] = 65;
    bytes.truncate(FIELD * 12);
    refused(&bytes, Refusal::Number(15));
}

#[test]
fn a_journal_that_does_not_go_on_is_refused() {
    let mut bytes = journal(AFTER).bytes().to_vec();
    bytes.pop();
    let mut first = Journal::new();
    first.write(AFTER).expect("lines of commands");
    for wrong in [Journal::from(bytes), first.clone(), Journal::from(Vec::new())] {
        assert_eq!(before().then(&wrong), Err(Refusal::Number(13)));
        assert_eq!(before().ask(&wrong, "count\n"), Err(Refusal::Number(13)));
        assert_eq!(before().ask(&wrong, "counts\n"), Err(Refusal::Line(1)));
    }
    assert_eq!(before().ask(&journal(AFTER), "count\nofer 20\n"), Err(Refusal::Line(2)));
    // a listing says so itself, and lists the book as it was
    let listing = before().listing(&first).expect("a sound snapshot");
    assert_eq!(listing, "0 13 0\naccount 1 5000 5000 1000 0\naccount 2 0 0 0 0\ntotals 0 0 0\n");
    // a malformed journal has no snapshot
    assert_eq!(Journal::from(Vec::new()).snapshot(), Err(Refusal::Number(13)));
}

/// The same journal in an edition.
fn in_edition(edition: u64, text: &str) -> Journal {
    let mut journal = Journal::of_edition(edition).expect("an edition that there is");
    journal.write(text).expect("lines of commands");
    journal
}

#[test]
fn a_snapshot_keeps_its_edition() {
    for edition in 1..=5 {
        let kept = in_edition(edition, BEFORE).snapshot().expect("a whole journal");
        assert_eq!(kept.bytes()[..FIELD], [0x10, 0, 8, 0, 0, 0, 0, 0, 0, 0, edition as u8]);
        let listing = LISTING.replace("edition 3", &format!("edition {edition}"));
        assert_eq!(kept.listing(&in_edition(edition, AFTER)), Ok(listing));
        assert_eq!(kept.then(&in_edition(edition % 5 + 1, AFTER)), Err(Refusal::Number(13)));
    }
}

#[test]
fn a_snapshot_that_names_no_edition_is_of_edition_3() {
    let old = Snapshot::from(before().bytes()[FIELD..].to_vec());
    assert_eq!(old.listing(&journal(AFTER)).as_deref(), Ok(LISTING));
    // it is written with its edition
    assert_eq!(old.then(&journal("")), Ok(before()));
    assert_eq!(old.then(&in_edition(4, "")), Err(Refusal::Number(13)));
}

#[test]
fn an_edition_that_there_is_not_is_refused_at_0() {
    for (at, byte) in [(10, 0), (10, 6), (6, 1), (3, 0x80)] {
        let mut bytes = before().bytes().to_vec();
        bytes[at] = byte;
        refused(&bytes, Refusal::Field(0));
    }
}

/// An offer with so many rounds, the lender's and the originator's in turn.
fn rounds(count: u64) -> String {
    let round = |n| format!("{} 100 {} 20 {} 500 86400 {n}\n", ["counter", "amend"][n as usize % 2], 2 - n % 2, 900 + n);
    let before = BEFORE.lines().take(6).map(|line| format!("{line}\n"));
    before.chain((0..count).map(round)).collect()
}

#[test]
fn sixteen_rounds_in_edition_4_and_twelve_before() {
    // from edition 5 on a schedule has three fields more
    for (edition, most, more) in [(1, 12, 0), (2, 12, 0), (3, 12, 0), (4, 16, 0), (5, 16, 3)] {
        let kept = in_edition(edition, &rounds(most)).snapshot().expect("a whole journal");
        assert_eq!(kept.bytes().len(), FIELD * (14 + 2 * 8 + 4 + 17 + more + 5 * most as usize));
        let last = rounds(most + 1).lines().last().map(|line| format!("{line}\n")).expect("a round");
        let more = kept.listing(&in_edition(edition, &last)).expect("a sound snapshot");
        assert!(more.starts_with(&format!("edition {edition}\n1 7\n")), "{more}");
    }
}

#[test]
fn a_journal_is_written_in_its_edition() {
    let mut journal = journal(BEFORE);
    assert_eq!(journal.text(), Ok(format!("edition 3\n{BEFORE}")));
    assert_eq!(journal.write("pause 100 1\npause  100 1\n"), Err(Refusal::Line(2)));
    assert_eq!(journal.write("edition 3\npause 100 1\n"), Err(Refusal::Line(1)));
    assert_eq!(Journal::new().write("edition 3\npause 100 1\n"), Err(Refusal::Line(1)));
    assert_eq!(Journal::of_edition(1), Ok(Journal::new()));
    for none in [0, 6, u64::MAX] {
        assert_eq!(Journal::of_edition(none), Err(Refusal::Number(13)));
    }
}

mod raw {
    extern "C" {
        pub fn solgaverna_snapshot(journal: *const u8, len: usize, out: *mut u8, room: usize) -> i64;
        pub fn solgaverna_snapshot_from(
            from: *const u8,
            held: usize,
            journal: *const u8,
            len: usize,
            out: *mut u8,
            room: usize,
        ) -> i64;
        pub fn solgaverna_listing_from(
            from: *const u8,
            held: usize,
            journal: *const u8,
            len: usize,
            out: *mut u8,
            room: usize,
        ) -> i64;
    }
}

#[test]
fn a_short_buffer_is_left_as_it_was() {
    let (kept, more, cut) = (before(), journal(AFTER), Journal::from(vec![0x10, 0, 2, 0]));
    let whole = kept.then(&more).expect("a whole journal");
    let call = |which: u8, from: &[u8], journal: &Journal, out: &mut [u8]| {
        let (held, len, room) = (from.len(), journal.bytes().len(), out.len());
        let (from, journal, out) = (from.as_ptr(), journal.bytes().as_ptr(), out.as_mut_ptr());
        match which {
            0 => unsafe { raw::solgaverna_snapshot(journal, len, out, room) },
            1 => unsafe { raw::solgaverna_snapshot_from(from, held, journal, len, out, room) },
            _ => unsafe { raw::solgaverna_listing_from(from, held, journal, len, out, room) },
        }
    };
    let size = whole.bytes().len();
    let mut short = vec![7; size - 1];
    let mut room = vec![7; size + 1];
    let first = journal(&format!("{BEFORE}{AFTER}"));
    for (which, with) in [(0, &first), (1, &more)] {
        assert_eq!(call(which, kept.bytes(), with, &mut short), -14);
        assert_eq!(call(which, kept.bytes(), &cut, &mut short), -13);
        assert_eq!(short, vec![7; size - 1]);
        room.fill(7);
        assert_eq!(call(which, kept.bytes(), with, &mut room), size as i64);
        assert_eq!(room, [whole.bytes(), &[7]].concat());
    }
    let mut short = vec![7; LISTING.len() - 1];
    assert_eq!(call(2, kept.bytes(), &more, &mut short), -14);
    assert_eq!(call(2, &kept.bytes()[1..], &more, &mut short), -13);
    assert_eq!(call(1, &kept.bytes()[1..], &more, &mut short), -13);
    assert_eq!(short, vec![7; LISTING.len() - 1]);
}
