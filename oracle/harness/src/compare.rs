//! A bounded comparison in one edition: books of generated commands, then damaged journals of the
//! same, and the fixed sample.

use std::time::{Duration, Instant};

use journal::Command;
use side::{Book, Side};

use crate::chance::Chance;
use crate::coverage::Coverage;
use crate::damage::{answers_differ, damaged, listings_differ, other_tags};
use crate::generate::{Generator, Plan};
use crate::given::{given, with_idle};
use crate::pair::{Pair, Start};
use crate::reference::read_as;
use crate::shrink::{shrink, Failure};
use crate::snapshots::{compare_spoiled, unsound_alike};
use crate::vectors::samples;

pub struct Report {
    pub edition: u64,
    pub samples: u64,
    pub questions: u64,
    pub commands: u64,
    pub books: u64,
    pub given_books: u64,
    pub queries: u64,
    pub wide_quotients: u64,
    pub damaged: u64,
    pub snapshots: Snapshots,
    pub time: Duration,
    pub coverage: Coverage,
}

/// How many snapshots were compared.
#[derive(Clone, Copy, Debug, Default)]
pub struct Snapshots {
    pub written: u64,
    pub read_back: u64,
    pub spoiled: u64,
    /// Unsound books, of which there is none.
    pub unsound: u64,
}

impl Report {
    fn of(edition: u64) -> Report {
        Report {
            edition,
            samples: 0,
            questions: 0,
            commands: 0,
            books: 0,
            given_books: 0,
            queries: 0,
            wide_quotients: 0,
            damaged: 0,
            snapshots: Snapshots::default(),
            time: Duration::ZERO,
            coverage: Coverage::of(edition),
        }
    }
}

pub enum Found {
    /// The smallest run that shows the difference.
    Run(Failure),
    /// Bytes that the sides read differently, and both listings.
    Bytes(Vec<u8>, String, String),
    /// How snapshots differ.
    Snapshot(String),
}

/// So many spoiled snapshots of a book's last state are read.
const SPOILED: usize = 24;

/// Compares so many commands of an edition from this seed. The first difference ends it.
pub fn compare(
    other: &mut dyn Side,
    edition: u64,
    seed: u64,
    commands: u64,
) -> (Report, Option<Found>) {
    let began = Instant::now();
    let mut report = Report::of(edition);
    let mut found = None;
    while found.is_none() && report.commands < commands {
        let mut chance = Chance::new(seed.wrapping_mul(0x9E37_79B9).wrapping_add(report.books));
        let mut chance = Chance::new(chance.number());
        let most = commands - report.commands;
        found = compare_book(other, &mut chance, most, &mut report);
        report.books += 1;
    }
    let found = found.or_else(|| compare_samples(other, &mut report));
    report.time = began.elapsed();
    (report, found)
}

/// The listings of the fixed sample's journals of the edition, the longest journal that the program
/// holds among those of the first, and the answers to their questions.
fn compare_samples(other: &mut dyn Side, report: &mut Report) -> Option<Found> {
    let edition = report.edition;
    for sample in samples().into_iter().filter(|sample| read_as(&sample.bytes) == edition) {
        report.samples += 1;
        report.questions += sample.questions.lines().count() as u64;
        let listings = listings_differ(other, &sample.bytes);
        if let Some((one, two)) = listings.or_else(|| answers_differ(other, &sample)) {
            return Some(Found::Bytes(sample.bytes, one, two));
        }
    }
    None
}

fn compare_book(
    other: &mut dyn Side,
    chance: &mut Chance,
    most: u64,
    report: &mut Report,
) -> Option<Found> {
    let edition = report.edition;
    let rows = chance.percent(25);
    let start = if rows { Start::Rows(rows_of(edition, chance)) } else { Start::Fresh(edition) };
    if let Start::Rows(book) = &start {
        report.given_books += 1;
        match unsound_alike(other, book) {
            Ok(planted) => report.snapshots.unsound += planted,
            Err(what) => return Some(Found::Snapshot(what)),
        }
    }
    let plan = Plan::new(chance);
    let length = plan.length.min(most);
    let mut generator = Generator::new(Chance::new(chance.number()), plan);
    let Run { commands, book, what } = run(other, &start, length, &mut generator, report);
    if let Some(what) = what {
        return Some(Found::Run(shrink(other, Failure { start, commands, what })));
    }
    compare_damaged(other, chance, &commands, report).or_else(|| {
        report.snapshots.spoiled += SPOILED as u64;
        compare_spoiled(other, chance, &book, SPOILED).err().map(Found::Snapshot)
    })
}

/// Given rows; the original, whose edition is the first, can hold no idle account.
fn rows_of(edition: u64, chance: &mut Chance) -> Book {
    let book = given(edition, chance);
    if edition == layer::EDITION {
        book
    } else {
        with_idle(book)
    }
}

/// The commands that were run, the book after them and the difference that ended them.
struct Run {
    commands: Vec<Command>,
    book: Book,
    what: Option<String>,
}

/// Runs one book.
fn run(
    other: &mut dyn Side,
    start: &Start,
    length: u64,
    generator: &mut Generator,
    report: &mut Report,
) -> Run {
    let mut pair = Pair::start(other, start);
    let mut commands: Vec<Command> = Vec::new();
    let mut what = pair.compare_books().err();
    while what.is_none() && (commands.len() as u64) < length {
        let command = generator.next(&pair.book);
        let time_before = commands.last().map_or(0, Command::now);
        commands.push(command);
        let before = pair.book.clone();
        match pair.step(&command) {
            Ok(answer) => {
                report.coverage.add(&command, &answer);
                let books = [&before, &pair.book];
                report.coverage.add_paths(&command, answer.number, time_before, books);
            }
            Err(difference) => what = Some(difference),
        }
    }
    report.commands += commands.len() as u64;
    report.queries += pair.met.queries;
    report.wide_quotients += pair.met.wide_quotients;
    report.snapshots.written += pair.met.written;
    report.snapshots.read_back += pair.met.read_back;
    Run { commands, book: pair.book, what }
}

fn compare_damaged(
    other: &mut dyn Side,
    chance: &mut Chance,
    commands: &[Command],
    report: &mut Report,
) -> Option<Found> {
    let some = &commands[..commands.len().min(chance.within(1, 30) as usize)];
    let edition = report.edition;
    let mut journals: Vec<_> = (0..12).map(|_| damaged(chance, edition, some)).collect();
    some.first().into_iter().for_each(|command| journals.extend(other_tags(edition, command)));
    for bytes in journals {
        report.damaged += 1;
        if let Some((one, two)) = listings_differ(other, &bytes) {
            return Some(Found::Bytes(bytes, one, two));
        }
    }
    None
}
