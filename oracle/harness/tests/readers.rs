//! Readers and writers of snapshots with a mistake, each of which the comparison finds.

use harness::compare::{compare, Found};
use harness::snapshots::{compare_damaged, compare_samples, samples};
use harness::snapshots::{unsound_alike, without_edition, written_alike};
use journal::LATEST;
use plain::edition::{fresh, keeps_terms};
use plain::schedule::{first_installment, FALLING, FLAT};
use plain::snapshot::{examine, read, write, write_within, Refusal};
use plain::Plain;
use side::{Book, Query, Refused, Reply, Side};

type Reader = fn(&mut Plain, &[u8]) -> Result<(), Refused>;
type Writer = fn(&Book, usize) -> Result<Vec<u8>, u64>;

/// The plain model with another reader and writer.
struct Mistaken {
    plain: Plain,
    reader: Reader,
    writer: Writer,
}

impl Mistaken {
    fn reading(reader: Reader) -> Mistaken {
        Mistaken { plain: Plain::default(), reader, writer: write_within }
    }

    fn writing(writer: Writer) -> Mistaken {
        Mistaken { plain: Plain::default(), reader: Plain::restore, writer }
    }
}

impl Side for Mistaken {
    fn name(&self) -> &'static str {
        "the model with a mistake"
    }

    fn reset(&mut self, edition: u64) {
        self.plain.reset(edition);
    }

    fn load(&mut self, book: &[u64]) {
        self.plain.load(book);
    }

    fn apply(&mut self, record: &[u8]) -> u64 {
        self.plain.apply(record)
    }

    fn dump(&self, out: &mut Vec<u64>) {
        self.plain.dump(out);
    }

    fn ask(&mut self, query: Query, out: &mut [u64]) -> Reply {
        self.plain.ask(query, out)
    }

    fn listing(&mut self, journal: &[u8]) -> Vec<u8> {
        self.plain.listing(journal)
    }

    fn answers(&mut self, journal: &[u8], questions: &str) -> Result<String, String> {
        self.plain.answers(journal, questions)
    }

    fn snapshot(&mut self, room: usize) -> Result<Vec<u8>, u64> {
        (self.writer)(self.plain.book(), room)
    }

    fn restore(&mut self, snapshot: &[u8]) -> Result<(), Refused> {
        (self.reader)(&mut self.plain, snapshot)
    }
}

/// The offset is that of the number and not of the tag.
fn offset_of_the_number(plain: &mut Plain, bytes: &[u8]) -> Result<(), Refused> {
    plain.restore(bytes).map_err(|(number, offset)| (number, offset + 3 * u64::from(number == 13)))
}

fn bytes_after_the_end_are_taken(plain: &mut Plain, bytes: &[u8]) -> Result<(), Refused> {
    match read(bytes) {
        Err((13, offset)) if read(&bytes[..offset as usize]).is_ok() => {
            plain.restore(&bytes[..offset as usize])
        }
        _ => plain.restore(bytes),
    }
}

/// A count past its limit is seen only after all fields, of which there are not enough.
fn counts_are_seen_late(plain: &mut Plain, bytes: &[u8]) -> Result<(), Refused> {
    match examine(bytes) {
        Err(Refusal::TooMany) => Err((13, bytes.len() as u64)),
        _ => plain.restore(bytes),
    }
}

fn seats_are_cut_to_32_bits(plain: &mut Plain, bytes: &[u8]) -> Result<(), Refused> {
    let mut bytes = bytes.to_vec();
    let seats = if has_edition(&bytes) { 22 } else { 11 };
    bytes.iter_mut().skip(seats + 3).take(4).for_each(|byte| *byte = 0);
    plain.restore(&bytes)
}

fn a_refusal_loses_the_book(plain: &mut Plain, bytes: &[u8]) -> Result<(), Refused> {
    plain.restore(bytes).inspect_err(|_| plain.reset(LATEST))
}

fn has_edition(bytes: &[u8]) -> bool {
    bytes.starts_with(&[0x10, 0, 8]) && bytes.len() >= 11
}

/// The bytes with another edition, where they have one.
fn with_edition(bytes: &[u8], edition: u64) -> Vec<u8> {
    let mut bytes = bytes.to_vec();
    if has_edition(&bytes) {
        bytes[3..11].copy_from_slice(&edition.to_be_bytes());
    }
    bytes
}

fn the_edition_is_needed(plain: &mut Plain, bytes: &[u8]) -> Result<(), Refused> {
    if has_edition(bytes) {
        plain.restore(bytes)
    } else {
        Err((13, 0))
    }
}

fn the_edition_is_cut_to_32_bits(plain: &mut Plain, bytes: &[u8]) -> Result<(), Refused> {
    let low = bytes.get(7..11).and_then(|low| low.try_into().ok()).map_or(0, u32::from_be_bytes);
    plain.restore(&with_edition(bytes, low.into()))
}

/// An edition that there is not is unsound after all fields and not malformed at once.
fn editions_are_tested_late(plain: &mut Plain, bytes: &[u8]) -> Result<(), Refused> {
    match read(&with_edition(bytes, LATEST)) {
        Err(refused) => Err(refused),
        Ok(_) => plain.restore(bytes).map_err(|_| (15, 0)),
    }
}

/// The number of rounds is held to the latest edition's limit as it is read, and to its own in the end.
fn every_edition_reads_sixteen_rounds(plain: &mut Plain, bytes: &[u8]) -> Result<(), Refused> {
    match (plain.restore(bytes), read(&with_edition(bytes, LATEST))) {
        (Err((15, 0)), Err(refused)) => Err(refused),
        (answer, _) => answer,
    }
}

fn every_edition_reads_twelve_rounds(plain: &mut Plain, bytes: &[u8]) -> Result<(), Refused> {
    match read(&with_edition(bytes, 3)) {
        Err((15, 0)) => Err((15, 0)),
        _ => plain.restore(bytes),
    }
}

fn old_bytes_are_of_the_latest_edition(plain: &mut Plain, bytes: &[u8]) -> Result<(), Refused> {
    plain.restore(bytes)?;
    if !has_edition(bytes) {
        let mut flat = Vec::new();
        Book { edition: LATEST, ..plain.book().clone() }.flat(&mut flat);
        plain.load(&flat);
    }
    Ok(())
}

fn all_books_are_of_edition_3(plain: &mut Plain, bytes: &[u8]) -> Result<(), Refused> {
    plain.restore(bytes)?;
    if has_edition(bytes) {
        return plain.restore(without_edition(bytes));
    }
    Ok(())
}

/// The last field with this tag, by its place, and its number.
fn last_field(bytes: &[u8], tag: u8) -> Option<(usize, u64)> {
    let place = bytes.chunks_exact(11).rposition(|field| field[..3] == [tag, 0, 8])? * 11;
    let number = bytes[place + 3..place + 11].try_into().ok()?;
    Some((place, u64::from_be_bytes(number)))
}

/// The last schedule's numbers are not tested where its count is 0.
fn absent_schedules_are_not_tested(plain: &mut Plain, bytes: &[u8]) -> Result<(), Refused> {
    let mut zeros = bytes.to_vec();
    if let Some((place, 0)) = last_field(bytes, 0x0A) {
        for field in zeros[place..].chunks_exact_mut(11) {
            field[3..].fill(0);
        }
    }
    plain.restore(&zeros)
}

/// The bytes with the installment that follows from the last schedule's kept terms and kind.
fn with_its_installment(bytes: &[u8]) -> Option<Vec<u8>> {
    let tags = [0x0A, 0x99, 0x9A, 0x9B, 0x14];
    let [count, stored, amount, rate, kind] = tags.map(|tag| last_field(bytes, tag));
    let (place, (amount, rate), kind) = (stored?.0, (amount?.1, rate?.1), kind?.1);
    let count = count.filter(|(_, count)| *count > 0 && rate < 1 << 32)?.1;
    let mut bytes = bytes.to_vec();
    let fits = first_installment(kind, amount as i64, count, rate) as u64;
    bytes[place + 3..place + 11].copy_from_slice(&fits.to_be_bytes());
    Some(bytes)
}

/// The stored installment need not be that of the kept terms.
fn installments_are_free(plain: &mut Plain, bytes: &[u8]) -> Result<(), Refused> {
    plain.restore(bytes).or_else(|refused| {
        let fitted = with_its_installment(bytes).filter(|_| refused == (15, 0)).ok_or(refused)?;
        plain.restore(&fitted).map_err(|_| refused)
    })
}

/// The bytes with the last field of this tag cut to its last so many bytes.
fn cut_to(bytes: &[u8], tag: u8, width: usize) -> Vec<u8> {
    let mut bytes = bytes.to_vec();
    if let Some((place, _)) = last_field(&bytes, tag) {
        bytes[place + 3..place + 11 - width].fill(0);
    }
    bytes
}

fn kept_rates_are_cut_to_32_bits(plain: &mut Plain, bytes: &[u8]) -> Result<(), Refused> {
    plain.restore(&cut_to(bytes, 0x9B, 4))
}

fn kinds_are_cut_to_32_bits(plain: &mut Plain, bytes: &[u8]) -> Result<(), Refused> {
    plain.restore(&cut_to(bytes, 0x14, 4))
}

/// Every number but 0 is taken for the falling kind.
fn kinds_are_flags(plain: &mut Plain, bytes: &[u8]) -> Result<(), Refused> {
    let mut bytes = bytes.to_vec();
    if let Some((place, 1..)) = last_field(&bytes, 0x14) {
        bytes[place + 3..place + 11].copy_from_slice(&FALLING.to_be_bytes());
    }
    plain.restore(&bytes)
}

/// The kind is read, and every schedule is a flat one.
fn kinds_are_dropped(plain: &mut Plain, bytes: &[u8]) -> Result<(), Refused> {
    plain.restore(bytes)?;
    let (mut book, mut flat) = (plain.book().clone(), Vec::new());
    book.offers.iter_mut().filter_map(|row| row.schedule.as_mut()).for_each(|row| row.kind = FLAT);
    book.flat(&mut flat);
    plain.load(&flat);
    Ok(())
}

/// A last schedule without its kind is a flat one.
fn a_kind_may_be_missing(plain: &mut Plain, bytes: &[u8]) -> Result<(), Refused> {
    plain.restore(bytes).or_else(|refused| {
        let kind = [[0x14, 0, 8].as_slice(), &FLAT.to_be_bytes()].concat();
        plain.restore(&[bytes, &kind].concat()).map_err(|_| refused)
    })
}

/// A schedule's terms are read, and the offer's are kept in their place.
fn the_offers_terms_are_kept(plain: &mut Plain, bytes: &[u8]) -> Result<(), Refused> {
    plain.restore(bytes)?;
    let (mut book, mut flat) = (plain.book().clone(), Vec::new());
    for offer in book.offers.iter_mut().filter(|_| keeps_terms(book.edition)) {
        let terms = (offer.amount, offer.rate);
        offer.schedule.iter_mut().for_each(|row| (row.amount, row.rate) = terms);
    }
    book.flat(&mut flat);
    plain.load(&flat);
    Ok(())
}

fn idle_accounts_are_dropped(plain: &mut Plain, bytes: &[u8]) -> Result<(), Refused> {
    plain.restore(bytes)?;
    let mut flat = Vec::new();
    Book { idle: 0, ..plain.book().clone() }.flat(&mut flat);
    plain.load(&flat);
    Ok(())
}

#[test]
fn every_mistake_in_a_reader_is_found() {
    let mistakes: [Reader; 21] = [
        offset_of_the_number,
        bytes_after_the_end_are_taken,
        counts_are_seen_late,
        seats_are_cut_to_32_bits,
        a_refusal_loses_the_book,
        absent_schedules_are_not_tested,
        idle_accounts_are_dropped,
        the_edition_is_needed,
        the_edition_is_cut_to_32_bits,
        editions_are_tested_late,
        every_edition_reads_sixteen_rounds,
        every_edition_reads_twelve_rounds,
        old_bytes_are_of_the_latest_edition,
        all_books_are_of_edition_3,
        installments_are_free,
        kept_rates_are_cut_to_32_bits,
        the_offers_terms_are_kept,
        kinds_are_cut_to_32_bits,
        kinds_are_flags,
        kinds_are_dropped,
        a_kind_may_be_missing,
    ];
    for (number, mistake) in mistakes.into_iter().enumerate() {
        let found =
            |bytes: &[u8]| compare_damaged(&mut Mistaken::reading(mistake), bytes, 1).is_err();
        assert!(samples().iter().any(|sample| found(&sample.bytes)), "{number}");
    }
}

/// No damage goes uncompared: neither where a side cannot be started nor where it breaks off.
#[test]
fn every_sample_is_compared() {
    let plain = || Ok(Box::<Plain>::default() as Box<dyn Side>);
    assert_eq!(compare_samples(&plain, 64).map(|damaged| damaged.len()), Ok(4));
    let breaks_off = || {
        let reader: Reader = |_, bytes| panic!("no answer to {} bytes", bytes.len());
        Ok(Box::new(Mistaken::reading(reader)) as Box<dyn Side>)
    };
    assert!(compare_samples(&breaks_off, 64).is_err());
    assert!(compare_samples(&|| Err("not started".to_string()), 64).is_err());
}

/// A fresh book with this writer: whether a sound book is written as it should be, and whether
/// unsound ones are refused so.
fn passes(writer: Writer) -> [bool; 2] {
    let mut side = Mistaken::writing(writer);
    side.reset(LATEST);
    let sound = written_alike(&mut side, &fresh(LATEST)).is_ok();
    [sound, unsound_alike(&mut side, &fresh(LATEST)).is_ok()]
}

#[test]
fn every_mistake_in_a_writer_is_found() {
    assert_eq!(passes(write_within), [true, true]);
    assert_eq!(passes(|book, _| write(book)), [false, true]);
    assert_eq!(passes(|book, room| write_within(book, room.saturating_sub(1))), [false, true]);
    assert_eq!(passes(|book, room| if room == 0 { Err(14) } else { write(book) }), [false, false]);
    assert_eq!(passes(|_, room| write_within(&fresh(LATEST), room)), [true, false]);
    let old: Writer = |book, room| {
        let bytes = write(book).map(|bytes| without_edition(&bytes).to_vec())?;
        if bytes.len() <= room {
            Ok(bytes)
        } else {
            Err(14)
        }
    };
    assert_eq!(passes(old), [false, true]);
    let third: Writer = |book, room| write_within(book, room).map(|bytes| with_edition(&bytes, 3));
    assert_eq!(passes(third), [false, true]);
}

/// In every edition the comparison writes and reads snapshots, and cuts a difference down.
#[test]
fn the_comparison_finds_mistakes() {
    let reader: Reader = |plain, bytes| plain.restore(bytes).map(|()| plain.reset(LATEST));
    let writer: Writer = |book, room| write_within(&Book { paused: false, ..book.clone() }, room);
    for edition in 1..=LATEST {
        let old = Mistaken::reading(the_edition_is_needed);
        for mut side in [Mistaken::reading(reader), Mistaken::writing(writer), old] {
            let (_, found) = compare(&mut side, edition, 1, 5_000);
            let Some(Found::Run(failure)) = found else { panic!("not found in edition {edition}") };
            assert_eq!(failure.commands.len(), 1, "{}", failure.what);
        }
    }
}
