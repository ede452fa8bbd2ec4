//! Snapshots in a history: journals replayed in parts, and books that no journal makes. The plain
//! model, and the proved book where its command is named.

use std::fs;
use std::path::{Path, PathBuf};

use harness::chance::Chance;
use harness::generate::{Generator, Plan};
use harness::given::{given, with_idle};
use harness::script::steps;
use harness::snapshots::{without_edition, WIDE};
use journal::{header, journal, Command, Step, HEADER_SIZE, LATEST};
use plain::edition::{fresh, OF_OLD_SNAPSHOTS};
use plain::{snapshot, Plain};
use port::Port;
use side::{Account, Book, Invoice, Offer, Query, Round, Side};

type Sides = Vec<Box<dyn Side>>;

fn sides() -> Sides {
    let command = std::env::var(port::COMMAND).ok();
    let proved = command.map(|command| Port::start(&command).expect("the program starts"));
    let proved = proved.map(|proved| Box::new(proved) as Box<dyn Side>);
    [Box::<Plain>::default() as Box<dyn Side>].into_iter().chain(proved).collect()
}

/// What all sides give, which is the same.
fn all_give<T: PartialEq + std::fmt::Debug>(
    sides: &mut Sides,
    name: &str,
    give: impl Fn(&mut dyn Side) -> T,
) -> T {
    let mut given = sides.iter_mut().map(|side| (side.name(), give(&mut **side)));
    let (_, first) = given.next().expect("the plain model is there");
    given.for_each(|(side, other)| assert!(first == other, "{name}: {side} differs"));
    first
}

fn cases(name: &str) -> PathBuf {
    Path::new(env!("CARGO_MANIFEST_DIR")).join("../../cases").join(name)
}

/// The latest edition that has stored journals of an independent reading.
const STORED: u64 = 5;

/// The stored journals of an edition, each with its name.
fn stored(edition: u64) -> Vec<(String, Vec<u8>)> {
    if edition > STORED {
        return Vec::new();
    }
    let folder = cases(&format!("edition-{edition}"));
    let files = fs::read_dir(folder).unwrap().map(|file| file.unwrap().path());
    let journals = files.filter(|file| file.extension().unwrap() == "journal");
    journals.map(|file| (file.display().to_string(), fs::read(&file).unwrap())).collect()
}

/// The sample's journals of an edition.
fn sampled(edition: u64) -> Vec<(String, Vec<u8>)> {
    let samples = harness::vectors::samples().into_iter();
    let named = samples.map(|sample| (sample.name, sample.bytes));
    named.filter(|(_, bytes)| journal::edition_of(bytes) == Some(edition)).collect()
}

/// The stored ones and, of a later edition than the first, the sample's.
fn journals(edition: u64) -> Vec<(String, Vec<u8>)> {
    let sampled = if edition == 1 { Vec::new() } else { sampled(edition) };
    stored(edition).into_iter().chain(sampled).collect()
}

/// Where the records of a well-formed journal begin, and its end.
fn places(bytes: &[u8]) -> Option<Vec<usize>> {
    let edition = journal::edition_of(bytes)?;
    let mut places = vec![HEADER_SIZE];
    loop {
        match journal::read(edition, bytes, *places.last()?) {
            Step::Command(_, next) => places.push(next),
            Step::End => return Some(places),
            Step::Malformed => return None,
        }
    }
}

/// A listing without its edition: the answers, numbered from 1, and the tables.
#[derive(Debug, PartialEq, Eq)]
struct Listing {
    answers: Vec<u64>,
    tables: Vec<String>,
}

fn listing_of(edition: u64, text: Vec<u8>) -> Listing {
    let text = String::from_utf8(text).unwrap();
    let mut lines = text.lines();
    assert_eq!(lines.next(), Some(format!("edition {edition}").as_str()));
    let (mut answers, mut tables) = (Vec::new(), Vec::new());
    for line in lines {
        let (first, rest) = line.split_once(' ').unwrap();
        if !first.bytes().all(|byte| byte.is_ascii_digit()) {
            tables.push(line.to_string());
            continue;
        }
        answers.push(rest.parse().unwrap());
        assert_eq!(first, answers.len().to_string());
    }
    Listing { answers, tables }
}

/// A journal replayed on a fresh book of its edition, and the snapshot that it leaves.
fn replayed(side: &mut dyn Side, bytes: &[u8]) -> (Vec<u8>, Vec<u8>) {
    side.reset(journal::edition_of(bytes).unwrap());
    let listing = side.listing_from(bytes);
    (listing, side.snapshot(WIDE).unwrap())
}

/// The same with a snapshot between two parts: both listings, the snapshot between and the last one.
fn in_parts(side: &mut dyn Side, bytes: &[u8], cut: usize) -> ([Listing; 2], [Vec<u8>; 2]) {
    let edition = journal::edition_of(bytes).unwrap();
    let (first, between) = replayed(side, &bytes[..cut]);
    side.reset(if edition == 1 { LATEST } else { 1 });
    side.restore(&between).unwrap();
    let rest = [&bytes[..HEADER_SIZE], &bytes[cut..]].concat();
    let rest = side.listing_from(&rest);
    let last = side.snapshot(WIDE).unwrap();
    ([listing_of(edition, first), listing_of(edition, rest)], [between, last])
}

#[test]
fn a_journal_in_parts_is_the_whole_journal() {
    let mut sides = sides();
    for edition in 1..=LATEST {
        let cuts = journals(edition).into_iter();
        let cuts = cuts.map(|(name, bytes)| cut_in_parts(&mut sides, edition, &name, &bytes));
        let least = if edition > STORED { 21 } else { 42 };
        assert!(cuts.sum::<usize>() >= least, "{edition}");
    }
}

/// Cuts a journal at some of its records; how often, which a malformed one is not.
fn cut_in_parts(sides: &mut Sides, edition: u64, name: &str, bytes: &[u8]) -> usize {
    let Some(places) = places(bytes) else { return 0 };
    let (text, snapshot) = all_give(sides, name, |side| replayed(side, bytes));
    assert_eq!(text, all_give(sides, name, |side| side.listing(bytes)), "{name}");
    let whole = listing_of(edition, text);
    let last = places.len() - 1;
    let records = [0, 1, last / 4, last / 2, 3 * last / 4, last - 1, last];
    for record in records {
        let parts = |side: &mut dyn Side| in_parts(side, bytes, places[record]);
        let ([first, rest], [_, last]) = all_give(sides, name, parts);
        assert_eq!([first.answers, rest.answers].concat(), whole.answers, "{name} {record}");
        assert_eq!(rest.tables, whole.tables, "{name} {record}");
        assert!(last == snapshot, "{name} {record}");
    }
    records.len()
}

/// A snapshot's book is of its own edition, and of edition 3 where no field says which: a journal of
/// another one is not replayed on it.
#[test]
fn a_journal_of_another_edition_is_not_replayed() {
    let mut sides = sides();
    for edition in 1..=LATEST {
        for (name, bytes) in journals(edition) {
            let replayed = |side: &mut dyn Side| {
                let (listing, snapshot) = replayed(side, &bytes);
                let listing = String::from_utf8(listing).unwrap();
                for form in [snapshot.as_slice(), without_edition(&snapshot)] {
                    read_as_another(side, &name, form, &listing);
                }
                (listing, snapshot)
            };
            let (_, snapshot) = all_give(&mut sides, &name, replayed);
            assert_eq!(snapshot::read(&snapshot).unwrap().edition, edition, "{name}");
        }
    }
}

/// The snapshot's book lists its tables alone for every journal but one of its edition.
fn read_as_another(side: &mut dyn Side, name: &str, snapshot: &[u8], listing: &str) {
    let book = match snapshot::read(snapshot) {
        Ok(book) => book,
        Err(refused) => {
            assert_eq!(side.restore(snapshot), Err(refused), "{name}: {}", side.name());
            return;
        }
    };
    side.restore(snapshot).unwrap();
    let tables = listing.lines().filter(|line| line.starts_with(['a', 't']));
    let tables = tables.fold(String::new(), |text, line| text + line + "\n");
    for other in (0..=LATEST + 1).filter(|other| *other != book.edition) {
        let refused = String::from_utf8(side.listing_from(&header(other))).unwrap();
        assert_eq!(refused, format!("0 13 0\n{tables}"), "{name}: {}", side.name());
    }
    let good = String::from_utf8(side.listing_from(&header(book.edition))).unwrap();
    assert_eq!(good, format!("edition {}\n{tables}", book.edition), "{name}: {}", side.name());
    let mut flat = Vec::new();
    book.flat(&mut flat);
    assert_eq!(side.flat(), flat, "{name}: {}", side.name());
}

/// A refused snapshot leaves the present book, and a header that is no header the book's tables.
#[test]
fn a_refusal_leaves_the_present_book() {
    let open = journal(3, &[Command::OpenAccount { now: 100, caller: 7 }]);
    for mut side in sides() {
        let (_, bytes) = replayed(&mut *side, &open);
        let flat = side.flat();
        assert_eq!(side.restore(&bytes[..100]), Err((13, 99)), "{}", side.name());
        assert_eq!(side.restore(&[&bytes, [0].as_slice()].concat()), Err((13, 242)));
        let mut unsound = bytes.clone();
        unsound[14..22].fill(0);
        assert_eq!(side.restore(&unsound), Err((15, 0)), "{}", side.name());
        let tables = "0 13 0\naccount 7 0 0 0 0\ntotals 0 0 0\n";
        for bad in [&[][..], &open[..4], &header(LATEST + 1), &header(4), &header(1)] {
            assert_eq!(side.listing_from(bad), tables.as_bytes(), "{}", side.name());
        }
        assert_eq!(side.flat(), flat, "{}", side.name());
    }
}

/// Offer 20 on an invoice of account 2, with so many rounds of it.
fn with_rounds(edition: u64, rounds: usize) -> Book {
    let account = |id| Account { id, ..Account::default() };
    let (amount, rate, duration) = (1, 1, 86_400);
    let round = Round { party: 1, amount: 2, rate, duration, time: 100 };
    let offer = Offer {
        id: 20,
        invoice: 10,
        lender: 1,
        amount,
        rate,
        duration,
        deadline: u64::MAX,
        rounds: vec![round; rounds],
        ..Offer::default()
    };
    Book {
        accounts: vec![account(1), account(2)],
        invoices: vec![Invoice { id: 10, originator: 2, amount: 9, status: 0 }],
        offers: vec![offer],
        ..fresh(edition)
    }
}

/// The answer to a counter after so many rounds.
fn counters(side: &mut dyn Side, edition: u64, rounds: usize) -> u64 {
    let line = format!("counter caller=2 id=20 amount=3 rate=1 round={rounds} : 0");
    let mut record = Vec::new();
    journal::write(edition, &steps(&line)[0].0, &mut record);
    side.apply(&record)
}

#[test]
fn a_snapshot_keeps_its_edition_and_its_limit() {
    for (edition, most) in [(1, 12), (2, 12), (3, 12), (4, 16), (5, 16)] {
        for mut side in sides() {
            let (book, mut flat) = (with_rounds(edition, most - 1), Vec::new());
            book.flat(&mut flat);
            side.load(&flat);
            let bytes = side.snapshot(WIDE).unwrap();
            assert_eq!(Ok(&bytes), snapshot::write(&book).as_ref(), "{}", side.name());
            side.reset(LATEST);
            side.restore(&bytes).unwrap();
            assert_eq!(side.flat(), flat, "{}", side.name());
            assert_eq!(counters(&mut *side, edition, most - 1), 0, "{}", side.name());
            assert_eq!(counters(&mut *side, edition, most), 7, "{}", side.name());
            with_rounds(edition, most + 1).flat(&mut flat);
            side.load(&flat);
            assert_eq!(side.snapshot(WIDE), Err(15), "{}", side.name());
        }
    }
}

/// The stored snapshot has no edition: it is from before there was a field for it.
#[test]
fn a_snapshot_from_before_is_of_edition_3() {
    let bytes = fs::read(cases("snapshot/first.snapshot")).unwrap();
    assert_eq!(bytes[0], 0x11);
    for mut side in sides() {
        side.reset(1);
        side.restore(&bytes).unwrap();
        assert_eq!(side.flat()[0], OF_OLD_SNAPSHOTS, "{}", side.name());
        let written = side.snapshot(WIDE).unwrap();
        let edition = [0x10, 0, 8, 0, 0, 0, 0, 0, 0, 0, 3];
        assert_eq!(written, [edition.as_slice(), &bytes].concat(), "{}", side.name());
        for rounds in 1..12 {
            assert_eq!(counters(&mut *side, OF_OLD_SNAPSHOTS, rounds), 0, "{}", side.name());
        }
        assert_eq!(counters(&mut *side, OF_OLD_SNAPSHOTS, 12), 7, "{}", side.name());
    }
}

/// The stored snapshots were made by hand: of the session's first part in each edition, of twelve
/// counters after it, the last of which edition 3 refuses, and in edition 5 of a schedule of either kind, an
/// amendment and an amount repaid after it.
#[test]
fn the_stored_snapshots_are_written() {
    let stored = |name: String| fs::read(cases(&format!("snapshot/{name}"))).unwrap();
    let (first, rounds) = (stored("first.bytes".into()), stored("rounds.bytes".into()));
    let mut sides = sides();
    for edition in 1..=LATEST {
        let of_edition = |bytes: &[u8]| [&header(edition), &bytes[HEADER_SIZE..]].concat();
        let (first, rounds) = (of_edition(&first), of_edition(&rounds));
        for side in &mut sides {
            let (_, snapshot) = replayed(&mut **side, &first);
            assert!(snapshot == stored(format!("edition-{edition}.snapshot")), "{edition}");
            let answers = listing_of(edition, side.listing_from(&rounds)).answers;
            let last = if edition < 4 { 7 } else { 0 };
            assert_eq!(answers, [[0; 11].as_slice(), &[last]].concat(), "{edition}");
            let kept =
                [3, 4].contains(&edition).then(|| stored(format!("rounds-{edition}.snapshot")));
            assert!(kept.is_none_or(|kept| side.snapshot(WIDE) == Ok(kept)), "{edition}");
        }
    }
    for name in ["kept", "falling"] {
        let (records, after) =
            (stored(format!("{name}.bytes")), stored(format!("{name}.snapshot")));
        for side in &mut sides {
            side.restore(&stored("edition-5.snapshot".into())).unwrap();
            let listing = listing_of(5, side.listing_from(&records));
            assert_eq!(listing.answers, [0; 4], "{name}: {}", side.name());
            assert!(side.snapshot(WIDE).unwrap() == after, "{name}: {}", side.name());
        }
    }
}

/// The terms are those of when the schedule was made, though the offer was amended since; the offer with
/// the greater id has no schedule, which is seven zeros. Of 1000 at 500 in three the first installment is the
/// same for each kind: with 693 repaid, 5 are owed on the second of a flat schedule, and of a falling one 339
/// on the third.
#[test]
fn a_snapshot_keeps_the_terms_of_a_schedule() {
    for (kind, due) in [(0, [2, 5]), (1, [3, 339])] {
        for mut side in sides() {
            keeps_terms(&mut *side, kind, due);
        }
    }
}

fn keeps_terms(side: &mut dyn Side, kind: u64, due: [u64; 2]) {
    let text = format!(
        "use base
        create caller=1 id=21 invoice=10 amount=1000 : 0
        schedule caller=1 id=20 count=3 code=1 first=1000000 kind={kind} : 0
        amend caller=1 id=20 amount=900 rate=7 round=0 : 0
        repayment-account id=3 : 0
        repaid caller=3 id=20 amount=693 : 0"
    );
    side.reset(5);
    for (command, _) in steps(&text) {
        let mut record = Vec::new();
        journal::write(5, &command, &mut record);
        assert_eq!(side.apply(&record), 0, "{command}");
    }
    let (flat, bytes) = (side.flat(), side.snapshot(WIDE).unwrap());
    let number = |tag: u8, number: u64| [[tag, 0, 8].as_slice(), &number.to_be_bytes()].concat();
    let kept = [(0x0C, 1_000_000), (0x9A, 1_000), (0x9B, 500), (0x14, kind)];
    let kept = kept.map(|(tag, held)| number(tag, held)).concat();
    let none = [0x0A, 0x0B, 0x99, 0x0C, 0x9A, 0x9B, 0x14].map(|tag| number(tag, 0)).concat();
    assert!(bytes.windows(kept.len()).any(|fields| fields == kept), "{}", side.name());
    assert!(bytes.ends_with(&none), "{}", side.name());
    side.reset(1);
    side.restore(&bytes).unwrap();
    assert_eq!(side.flat(), flat, "{}", side.name());
    let mut answer = [9; 2];
    side.ask(Query::Due(20, u64::MAX), &mut answer);
    assert_eq!(answer, due, "{}", side.name());
}

/// 13 at 0 for an edition that there is not, before anything behind it.
#[test]
fn an_edition_that_there_is_not_is_malformed() {
    let bytes = snapshot::write(&with_rounds(4, 16)).unwrap();
    for mut side in sides() {
        for edition in [0, 6, (1 << 32) + 1, 1 << 63] {
            let field = [[0x10, 0, 8].as_slice(), &u64::to_be_bytes(edition)].concat();
            for rest in [without_edition(&bytes), &[]] {
                let answer = side.restore(&[field.as_slice(), rest].concat());
                assert_eq!(answer, Err((13, 0)), "{edition}: {}", side.name());
            }
        }
    }
}

/// A thirteenth round in edition 3 gives 15 at once, though what follows is malformed or missing.
#[test]
fn a_round_too_many_comes_before_what_is_malformed_after_it() {
    let bytes = snapshot::write(&with_rounds(4, 13)).unwrap();
    let count = bytes.windows(11).position(|field| field[..3] == [0x97, 0, 8]).unwrap();
    for mut side in sides() {
        for edition in 1..=3 {
            let mut early = bytes.clone();
            early[3..11].copy_from_slice(&u64::to_be_bytes(edition));
            let cut = &early[..count + 11];
            for bytes in [&early, cut, &[cut, &[0xFF; 30]].concat(), &early[11..], &cut[11..]] {
                assert_eq!(side.restore(bytes), Err((15, 0)), "{edition}: {}", side.name());
            }
        }
        assert_eq!(side.restore(&bytes), Ok(()), "{}", side.name());
        let cut = side.restore(&bytes[..count + 11]);
        assert_eq!(cut, Err((13, count as u64 + 11)), "{}", side.name());
    }
}

/// Commands of the generator on a book, and the answers of the plain model to them.
fn commands_on(book: &Book, mut chance: Chance) -> (Vec<Command>, Vec<u64>) {
    let (mut plain, mut flat) = (Plain::default(), Vec::new());
    book.flat(&mut flat);
    plain.load(&flat);
    let plan = Plan::new(&mut chance);
    let mut generator = Generator::new(chance, plan);
    let next = |_| {
        let command = generator.next(plain.book());
        (command, plain.run(&command))
    };
    (0..60).map(next).unzip()
}

/// Figures that do not agree with the rows: what is read goes on as the given book does.
#[test]
fn a_book_that_no_journal_makes_is_read_and_goes_on() {
    let mut sides = sides();
    for seed in 0..80 {
        let (edition, mut chance) = (seed % LATEST + 1, Chance::new(seed));
        let book = with_idle(given(edition, &mut chance));
        let (commands, answers) = commands_on(&book, chance);
        let (bytes, rest) = (snapshot::write(&book).unwrap(), journal(edition, &commands));
        let goes_on = |side: &mut dyn Side| {
            side.reset(1);
            side.restore(&bytes).unwrap();
            assert_eq!(side.snapshot(WIDE).as_ref(), Ok(&bytes), "{}", side.name());
            let listing = side.listing_from(&rest);
            (listing, side.flat(), side.snapshot(WIDE))
        };
        let (listing, ..) = all_give(&mut sides, &format!("seed {seed}"), goes_on);
        assert_eq!(listing_of(edition, listing).answers, answers, "seed {seed}");
    }
}

/// Account 1 has offered 5 by its figure, and its offer is of 900: amending it by 6 less would make
/// the figure −1, by 5 less makes it 0. The round of the snapshot stands for the counter before it.
#[test]
fn figures_go_on_from_the_snapshot() {
    let lender =
        Account { id: 1, balance: 1_000, allowance: 1_000, offered: 5, ..Account::default() };
    let round = Round { party: 1, amount: 895, rate: 1, duration: 86_400, time: 100 };
    let offer = Offer {
        id: 20,
        invoice: 10,
        lender: 1,
        amount: 900,
        rate: 1,
        duration: 86_400,
        deadline: 200,
        rounds: vec![round],
        ..Offer::default()
    };
    let book = Book {
        accounts: vec![lender, Account { id: 2, balance: 3, ..Account::default() }],
        invoices: vec![Invoice { id: 10, originator: 2, amount: 900, status: 0 }],
        offers: vec![offer],
        ..fresh(3)
    };
    let bytes = snapshot::write(&book).unwrap();
    let text = "amend caller=1 id=20 amount=894 rate=1 round=1 : 11
        amend caller=1 id=20 amount=895 rate=1 round=0 : 3
        amend caller=1 id=20 amount=895 rate=1 round=1 : 0";
    let (commands, answers): (Vec<_>, Vec<_>) = steps(text).into_iter().unzip();
    for mut side in sides() {
        side.restore(&bytes).unwrap();
        let listing = listing_of(3, side.listing_from(&journal(3, &commands)));
        assert_eq!(listing.answers, answers, "{}", side.name());
        let tables = ["account 1 105 105 0 895", "account 2 898 0 0 0", "totals 895 0 0"];
        assert_eq!(listing.tables, tables, "{}", side.name());
    }
}
