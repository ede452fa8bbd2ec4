//! The comparison's commands.

use std::process::ExitCode;
use std::time::Instant;

use harness::compare::{compare, Found, Report, Snapshots};
use harness::reference::Reference;
use harness::rescue::compare_rescues;
use harness::shrink::show;
use harness::snapshots::compare_samples;
use plain::{rescue, Plain, Slip, SLIPS};
use port::Port;
use side::{Rescue, Side};

const USAGE: &str = "usage:
  harness compare [--edition E] [--side plain] [--seed S] [--commands N] [--slip K]
      runs N commands (200000) of edition E (1) from seed S (1) on the original, in a later edition
      on the plain model, and on the proved book, which the command in the variable
      SOLGAVERNA_BRIDGE serves, and compares after each the answer, the whole book and queries;
      with --side plain on the plain model in its place. K from 1 to 15 plants a slip in that, by
      default in the first edition in which it shows, which must then be found
  harness snapshots [--side plain] [--one-in N]
      damages four snapshots at every byte, one damage in N (1), and compares what the plain reader
      and the proved one make of each; with --side plain by the plain reader alone
  harness rescue [--side plain] [--seed S] [--count N] [--slip K]
      damages N journals (10000) of all editions from seed S (1) and compares what the plain rescue
      and the proved one save of each; with --side plain by the plain rescue alone. K from 1 to 3
      plants a slip in a second plain one, which must then be found
  harness editions
      prints the editions, a line each
  harness replay [--side plain] FILE
      prints the original's listing of a journal, of one of a later edition the plain model's
  harness answer [--side plain] JOURNAL QUESTIONS
      prints the answers of the same to questions, as the program ask does
  harness vectors [--check] DIR
      writes the sample of journals with their listings, or tests what is there";

fn main() -> ExitCode {
    let words: Vec<_> = std::env::args().skip(1).collect();
    let words: Vec<_> = words.iter().map(String::as_str).collect();
    let done = match words.as_slice() {
        ["compare", options @ ..] => compare_command(options),
        ["snapshots", options @ ..] => snapshots_command(options),
        ["rescue", options @ ..] => rescue_command(options),
        ["editions"] => editions(),
        ["replay", "--side", "plain", file] => replay(file, true),
        ["replay", file] => replay(file, false),
        ["answer", "--side", "plain", journal, questions] => answer(journal, questions, true),
        ["answer", journal, questions] => answer(journal, questions, false),
        ["vectors", "--check", folder] => harness::vectors::check_folder(folder),
        ["vectors", folder] => harness::vectors::write(folder),
        _ => Err(USAGE.to_string()),
    };
    match done {
        Ok(()) => ExitCode::SUCCESS,
        Err(text) => {
            eprintln!("{text}");
            ExitCode::FAILURE
        }
    }
}

fn contents(file: &str) -> Result<Vec<u8>, String> {
    std::fs::read(file).map_err(|error| format!("{file}: {error}"))
}

fn editions() -> Result<(), String> {
    (1..=journal::LATEST).for_each(|edition| println!("{edition}"));
    Ok(())
}

fn reader(journal: &[u8], plain: bool) -> Reference {
    if plain {
        Reference::Plain(Box::default())
    } else {
        Reference::of_journal(journal)
    }
}

fn replay(file: &str, plain: bool) -> Result<(), String> {
    let bytes = contents(file)?;
    let listing = reader(&bytes, plain).side().listing(&bytes);
    print!("{}", String::from_utf8_lossy(&listing));
    Ok(())
}

fn answer(journal: &str, questions: &str, plain: bool) -> Result<(), String> {
    let text = String::from_utf8(contents(questions)?);
    let text = text.map_err(|error| format!("{questions}: {error}"))?;
    let bytes = contents(journal)?;
    print!("{}", reader(&bytes, plain).side().answers(&bytes, &text)?);
    Ok(())
}

/// Below so many commands the table is shown, but nothing is asked of it.
const COVERING: u64 = 200_000;

/// What `compare` is asked to do.
struct Asked {
    edition: u64,
    plain: bool,
    seed: u64,
    commands: u64,
    slip: Option<Slip>,
}

fn asked(options: &[&str]) -> Result<Asked, String> {
    let mut asked = Asked { edition: 1, plain: false, seed: 1, commands: COVERING, slip: None };
    let mut edition = None;
    for option in options.chunks(2) {
        let [name, value] = option else { return Err(USAGE.to_string()) };
        let number = || value.parse::<u64>().map_err(|_| USAGE.to_string());
        match *name {
            "--edition" => edition = Some(number()?),
            "--side" if *value == "plain" => asked.plain = true,
            "--seed" => asked.seed = number()?,
            "--commands" => asked.commands = number()?,
            "--slip" => {
                let (slip, first) = slip(number()?)?;
                (asked.slip, asked.edition) = (Some(slip), first);
            }
            _ => return Err(USAGE.to_string()),
        }
    }
    asked.edition = edition.unwrap_or(asked.edition);
    match plain::edition::is_listed(asked.edition) {
        true => Ok(asked),
        false => Err(USAGE.to_string()),
    }
}

fn slip(number: u64) -> Result<(Slip, u64), String> {
    let slip = (number as usize).checked_sub(1).and_then(|index| SLIPS.get(index));
    slip.copied().ok_or(USAGE.to_string())
}

fn other_side(plain: bool, slip: Option<Slip>) -> Result<Box<dyn Side>, String> {
    if plain || slip.is_some() {
        return Ok(Box::new(Plain::with_slip(slip)));
    }
    Ok(Box::new(port()?))
}

fn port() -> Result<Port, String> {
    match std::env::var(port::COMMAND) {
        Ok(command) => Port::start(&command),
        Err(_) => Err(format!(
            "{} does not name the command of the proved book; oracle/run does, and --side plain \
             compares with the plain model",
            port::COMMAND
        )),
    }
}

fn compare_command(options: &[&str]) -> Result<(), String> {
    let asked = asked(options)?;
    let mut other = other_side(asked.plain, asked.slip)?;
    let (report, found) = compare(&mut *other, asked.edition, asked.seed, asked.commands);
    print_report(&report, asked.seed, other.name());
    match (found, asked.slip) {
        (Some(found), None) => Err(told(&mut *other, found)),
        (Some(found), Some(slip)) => {
            println!("{}", told(&mut *other, found));
            println!("the planted slip {slip:?} is found");
            Ok(())
        }
        (None, Some(slip)) => Err(format!("the planted slip {slip:?} is not found")),
        (None, None) => covered(&report, asked.commands),
    }
}

fn snapshots_command(options: &[&str]) -> Result<(), String> {
    let (mut plain, mut one_in) = (false, 1);
    for option in options.chunks(2) {
        match option {
            ["--side", "plain"] => plain = true,
            ["--one-in", number] => one_in = number.parse().map_err(|_| USAGE.to_string())?,
            _ => return Err(USAGE.to_string()),
        }
    }
    let began = Instant::now();
    let damaged = compare_samples(&|| other_side(plain, None), one_in.max(1))?;
    let sum: u64 = damaged.iter().map(|(_, counts)| counts.sum()).sum();
    for (sample, counts) in damaged {
        println!("the {} snapshot, {} bytes\n{counts}", sample.name, sample.bytes.len());
    }
    let (who, time) = (if plain { "alone" } else { "and the proved one" }, began.elapsed());
    let time = time.as_secs_f64();
    println!("{sum} damaged snapshots, the plain reader {who}: no difference, {time:.1} s");
    Ok(())
}

/// What `rescue` is asked to do.
struct Damages {
    plain: bool,
    seed: u64,
    count: u64,
    slip: Option<rescue::Slip>,
}

fn damages(options: &[&str]) -> Result<Damages, String> {
    let mut asked = Damages { plain: false, seed: 1, count: 10_000, slip: None };
    for option in options.chunks(2) {
        let [name, value] = option else { return Err(USAGE.to_string()) };
        let number = || value.parse::<u64>().map_err(|_| USAGE.to_string());
        match *name {
            "--side" if *value == "plain" => asked.plain = true,
            "--seed" => asked.seed = number()?,
            "--count" => asked.count = number()?,
            "--slip" => {
                let index = (number()? as usize).wrapping_sub(1);
                asked.slip = Some(*rescue::SLIPS.get(index).ok_or(USAGE)?);
            }
            _ => return Err(USAGE.to_string()),
        }
    }
    Ok(asked)
}

fn rescue_command(options: &[&str]) -> Result<(), String> {
    let Damages { plain, seed, count, slip } = damages(options)?;
    let start = || -> Result<Box<dyn Rescue>, String> {
        if plain || slip.is_some() {
            Ok(Box::new(rescue::Rescuer::with_slip(slip)))
        } else {
            Ok(Box::new(port()?))
        }
    };
    let began = Instant::now();
    match (compare_rescues(&start, seed, count), slip) {
        (Ok(counts), None) => {
            let who = if plain { "alone" } else { "and the proved one" };
            let (sum, time) = (counts.sum(), began.elapsed().as_secs_f64());
            print!("{counts}{sum} journals, seed {seed}, the plain rescue {who}: ");
            println!("no difference, {time:.1} s");
            Ok(())
        }
        (Err(found), None) => Err(found),
        (Err(found), Some(slip)) => {
            println!("{found}\nthe planted slip {slip:?} is found");
            Ok(())
        }
        (Ok(_), Some(slip)) => Err(format!("the planted slip {slip:?} is not found")),
    }
}

fn told(other: &mut dyn Side, found: Found) -> String {
    match found {
        Found::Run(failure) => show(other, &failure),
        Found::Bytes(bytes, one, two) => {
            let digits: String = bytes.iter().map(|byte| format!("{byte:02x}")).collect();
            let (first, second) = (Reference::of_journal(&bytes).side().name(), other.name());
            format!("a journal is read differently: {digits}\n{first}:\n{one}{second}:\n{two}")
        }
        Found::Snapshot(what) => what,
    }
}

fn print_report(report: &Report, seed: u64, name: &str) {
    println!(
        "{} commands of edition {}, {} beside {name}, seed {seed}: {} journals of the sample with {} questions, {} books, {} of them from given rows, {} queries, {} damaged journals, {:.1} s",
        report.commands,
        report.edition,
        Reference::of(report.edition).side().name(),
        report.samples,
        report.questions,
        report.books,
        report.given_books,
        report.queries,
        report.damaged,
        report.time.as_secs_f64()
    );
    let Snapshots { written, read_back, spoiled, unsound } = report.snapshots;
    println!(
        "snapshots: {written} written, {read_back} read back, {spoiled} spoiled ones, {unsound} unsound books"
    );
}

fn covered(report: &Report, commands: u64) -> Result<(), String> {
    let coverage = &report.coverage;
    println!("\n{}", coverage.table());
    if coverage.of_original() {
        println!("{}", coverage.sources());
    }
    println!("{}", coverage.paths());
    if coverage.of_original() {
        println!("{}", coverage.lines_met());
        println!(
            "listed difference met: a paid quotient of 2^32 or more, {} times",
            report.wide_quotients
        );
    }
    let gaps = [coverage.unexpected(), coverage.unmet_lines(), coverage.unwalked()].concat();
    if gaps.is_empty() || commands < COVERING {
        println!("no difference");
        Ok(())
    } else {
        Err(gaps.join("\n"))
    }
}
