//! Cutting a failing run down to the smallest journal that still fails.

use journal::{Command, Numbers, TAGS};
use side::{Book, Side};

use crate::pair::{Pair, Start};

pub struct Failure {
    pub start: Start,
    pub commands: Vec<Command>,
    pub what: String,
}

/// The first difference that a run shows, with everything compared after each command: after how
/// many commands, and what.
pub fn difference(
    other: &mut dyn Side,
    start: &Start,
    commands: &[Command],
) -> Option<(usize, String)> {
    let mut pair = Pair::start(other, start);
    pair.compare_all();
    if let Err(what) = pair.compare_books() {
        return Some((0, what));
    }
    for (index, command) in commands.iter().enumerate() {
        if let Err(what) = pair.step(command) {
            return Some((index + 1, what));
        }
    }
    None
}

/// Removes, simplifies, and again, until nothing more can go.
pub fn shrink(other: &mut dyn Side, failure: Failure) -> Failure {
    let mut smallest = failure;
    loop {
        let before = size(&smallest);
        start_fresh(other, &mut smallest);
        remove(other, &mut smallest);
        remove_rounds(other, &mut smallest);
        remove_rows(other, &mut smallest);
        rename(other, &mut smallest);
        simplify(other, &mut smallest);
        if size(&smallest) == before {
            return smallest;
        }
    }
}

fn size(failure: &Failure) -> (usize, u128) {
    let numbers = failure.commands.iter().flat_map(|command| command.numbers().1);
    (failure.commands.len(), numbers.map(u128::from).sum())
}

/// Takes the run if it still fails, cut after the command that shows it.
fn take(
    other: &mut dyn Side,
    into: &mut Failure,
    start: Start,
    mut commands: Vec<Command>,
) -> bool {
    let Some((length, what)) = difference(other, &start, &commands) else { return false };
    commands.truncate(length);
    *into = Failure { start, commands, what };
    true
}

fn start_fresh(other: &mut dyn Side, into: &mut Failure) {
    if matches!(into.start, Start::Rows(_)) {
        let (edition, commands) = (into.start.edition(), into.commands.clone());
        take(other, into, Start::Fresh(edition), commands);
    }
}

/// Removes runs of commands, long ones first.
fn remove(other: &mut dyn Side, into: &mut Failure) {
    let mut length = into.commands.len().div_ceil(2);
    while length > 0 {
        let mut at = 0;
        while at < into.commands.len() {
            let mut fewer = into.commands.clone();
            fewer.drain(at..(at + length).min(into.commands.len()));
            let start = into.start.clone();
            if !take(other, into, start, fewer) {
                at += length;
            }
        }
        length /= 2;
    }
}

/// Removes a round and lets the later rounds on its offer move up.
fn remove_rounds(other: &mut dyn Side, into: &mut Failure) {
    let mut at = 0;
    while at < into.commands.len() {
        let (tag, removed) = into.commands[at].numbers();
        let mut fewer = into.commands.clone();
        fewer.remove(at);
        for command in &mut fewer[at..] {
            let (tag, mut numbers) = command.numbers();
            let later = numbers[ROUND] > removed[ROUND] && numbers[ID] == removed[ID];
            numbers[ROUND] -= u64::from(later && ROUNDS.contains(&tag));
            *command = command_of(tag, &numbers);
        }
        let start = into.start.clone();
        if !ROUNDS.contains(&tag) || !take(other, into, start, fewer) {
            at += 1;
        }
    }
}

const ROUNDS: [u8; 2] = [0x35, 0x36];
const ROUND: usize = 0x09;
const ID: usize = 0x03;

fn command_of(tag: u8, numbers: &Numbers) -> Command {
    Command::of_numbers(tag, numbers).expect("a command's tag")
}

/// Fields whose numbers name rows.
const NAMES: [usize; 3] = [0x02, 0x03, 0x04];

/// Replaces a number wherever it stands: names of rows by small ones that are free, other figures
/// by the same figure of another command or by a round one.
fn rename(other: &mut dyn Side, into: &mut Failure) {
    if matches!(into.start, Start::Rows(_)) {
        return;
    }
    for small in 1..=40 {
        let names = numbers_in(into, &NAMES);
        let Some(great) = names.iter().copied().find(|name| *name > small) else { continue };
        if !names.contains(&small) {
            replace(other, into, &NAMES, great, small);
        }
    }
    for field in 0x01..TAGS {
        for great in numbers_in(into, &[field]) {
            let rounds = [0, 1, 2, 3, 10, 100, 86_400, 86_401];
            let smaller = rounds.into_iter().filter(|number| *number < great);
            if !NAMES.contains(&field) {
                smaller
                    .take_while(|number| !replace(other, into, &[field], great, *number))
                    .count();
            }
        }
    }
}

/// The distinct numbers that stand in these fields.
fn numbers_in(failure: &Failure, fields: &[usize]) -> Vec<u64> {
    let all = failure.commands.iter().flat_map(|command| {
        let (_, numbers) = command.numbers();
        fields.iter().map(move |field| numbers[*field])
    });
    let distinct: std::collections::BTreeSet<_> = all.collect();
    distinct.into_iter().rev().collect()
}

fn replace(other: &mut dyn Side, into: &mut Failure, fields: &[usize], from: u64, to: u64) -> bool {
    let renamed = |command: &Command| {
        let (tag, mut numbers) = command.numbers();
        for field in fields {
            if numbers[*field] == from {
                numbers[*field] = to;
            }
        }
        command_of(tag, &numbers)
    };
    let commands = into.commands.iter().map(renamed).collect();
    let start = into.start.clone();
    take(other, into, start, commands)
}

/// Removes rows of the given book.
fn remove_rows(other: &mut dyn Side, into: &mut Failure) {
    for drop in [drop_offer, drop_invoice, drop_account, drop_rounds] {
        let mut index = 0;
        while let Start::Rows(book) = &into.start {
            let mut fewer = book.clone();
            if !drop(&mut fewer, index) {
                break;
            }
            let commands = into.commands.clone();
            if !take(other, into, Start::Rows(fewer), commands) {
                index += 1;
            }
        }
    }
}

fn drop_from<T>(rows: &mut Vec<T>, index: usize) -> bool {
    let present = index < rows.len();
    if present {
        rows.remove(index);
    }
    present
}

fn drop_offer(book: &mut Book, index: usize) -> bool {
    drop_from(&mut book.offers, index)
}

fn drop_invoice(book: &mut Book, index: usize) -> bool {
    drop_from(&mut book.invoices, index)
}

/// An account goes only if no other row names it: every account named is opened.
fn drop_account(book: &mut Book, index: usize) -> bool {
    let named = |id: u64| {
        let originates = book.invoices.iter().any(|row| row.originator == id);
        originates || book.offers.iter().any(|row| row.lender == id)
    };
    let free: Vec<_> = (0..book.accounts.len()).filter(|i| !named(book.accounts[*i].id)).collect();
    free.get(index).is_some_and(|place| drop_from(&mut book.accounts, *place))
}

fn drop_rounds(book: &mut Book, index: usize) -> bool {
    let held =
        book.offers.iter_mut().filter(|row| !row.rounds.is_empty() || row.schedule.is_some());
    held.skip(index)
        .take(1)
        .map(|row| {
            row.rounds.pop();
            row.schedule = None;
        })
        .count()
        == 1
}

/// Tries smaller numbers in every field.
fn simplify(other: &mut dyn Side, into: &mut Failure) {
    for index in 0..into.commands.len() {
        let Some(command) = into.commands.get(index) else { return };
        for field in command.kind().fields(into.start.edition()) {
            simplify_field(other, into, index, field);
        }
    }
}

/// Tries a few round numbers, then halves the way down to the smallest that still fails.
fn simplify_field(other: &mut dyn Side, into: &mut Failure, index: usize, field: u8) {
    let rounds = [0, 1, 2, 10, 100, 86_400];
    rounds.into_iter().find(|smaller| set_field(other, into, index, field, *smaller));
    let Some(mut high) = field_of(into, index, field) else { return };
    let mut low = 0;
    while high - low > 1 {
        let middle = low + (high - low) / 2;
        if set_field(other, into, index, field, middle) {
            high = middle;
        } else {
            low = middle;
        }
    }
}

fn field_of(failure: &Failure, index: usize, field: u8) -> Option<u64> {
    failure.commands.get(index).map(|command| command.numbers().1[field as usize])
}

/// Takes the run with a smaller number in this field, if it still fails.
fn set_field(other: &mut dyn Side, into: &mut Failure, index: usize, field: u8, to: u64) -> bool {
    if field_of(into, index, field).is_none_or(|number| number <= to) {
        return false;
    }
    let mut commands = into.commands.clone();
    let (tag, mut numbers) = commands[index].numbers();
    numbers[field as usize] = to;
    commands[index] = command_of(tag, &numbers);
    let start = into.start.clone();
    take(other, into, start, commands)
}

/// The run decoded, with both sides' answers.
pub fn show(other: &mut dyn Side, failure: &Failure) -> String {
    let mut out = String::new();
    if let Start::Rows(book) = &failure.start {
        out += &format!("from given rows: {book:#?}\n");
    }
    let mut pair = Pair::start(other, &failure.start);
    for (number, command) in (1..).zip(&failure.commands) {
        let answers = match pair.step(command) {
            Ok(answer) => format!("both {}", answer.number),
            Err(what) => what,
        };
        out += &format!("{number:>4}  {command}\n      {answers}\n");
    }
    let [one, two] = pair.names();
    let bytes = journal::journal(failure.start.edition(), &failure.commands);
    let digits: String = bytes.iter().map(|byte| format!("{byte:02x}")).collect();
    out + &format!("{one} and {two} differ: {}\njournal {digits}\n", failure.what)
}
