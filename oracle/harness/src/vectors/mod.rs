//! The fixed sample: journals with the original's listings, and questions about them with the
//! original's answers, as files that are replayed where no Rust is at hand. For journals of later
//! editions than the first both come from the plain model.

mod malformed;
mod met;
mod questions;
mod samples;

use std::collections::BTreeSet;
use std::path::Path;

use journal::{Command, Step as Read, HEADER_SIZE, SESSION_LISTING};
use layer::Source;
use plain::Plain;

use crate::coverage::ALLOWED;
use crate::damage::answers_differ;
use crate::reference::{self, read_as, Answer, Reference};
use crate::script::{edition, steps};
use met::unmet;
use samples::SCRIPTS;
pub use samples::{samples, Sample};

/// Answers that document 01 allows and that no journal of 32,768 bytes reaches: balances and
/// totals near 4×10^15 and a count near 1,000,000. The comparison starts from given rows there.
const BEYOND_A_JOURNAL: [(u8, usize); 6] =
    [(0x22, 11), (0x31, 11), (0x33, 11), (0x35, 11), (0x36, 11), (0x43, 11)];

/// The answers to each well-formed record that the replay program would apply.
fn answers(bytes: &[u8]) -> Vec<(Command, Answer)> {
    let edition = journal::edition_of(bytes).filter(|_| bytes.len() <= side::PROGRAM_HOLDS);
    let Some(edition) = edition else { return Vec::new() };
    let (mut reference, mut answers) = (Reference::of(edition), Vec::new());
    let mut at = HEADER_SIZE;
    while let Read::Command(command, next) = journal::read(edition, bytes, at) {
        answers.push((command, reference.run(&command)));
        at = next;
    }
    answers
}

/// The files of the sample: NAME.journal and NAME.listing for every journal, NAME.questions and
/// NAME.answers for some, and a table of them.
fn files() -> Result<Vec<(String, Vec<u8>)>, String> {
    let samples = samples();
    check(&samples)?;
    let answers = check_answers(&samples)?;
    let mut files = vec![("INDEX.md".to_string(), index(&samples).into_bytes())];
    for (sample, answers) in samples.into_iter().zip(answers) {
        let name = sample.name;
        let listing = reference::listing(&sample.bytes);
        files.push((format!("{name}.listing"), listing.into_bytes()));
        files.push((format!("{name}.journal"), sample.bytes));
        if !sample.questions.is_empty() {
            files.push((format!("{name}.questions"), sample.questions.into_bytes()));
            files.push((format!("{name}.answers"), answers.into_bytes()));
        }
    }
    Ok(files)
}

/// The answers to each sample's questions. Where they are the original's the plain model must give
/// the same, and together they hold every answer that is owed.
fn check_answers(samples: &[Sample]) -> Result<Vec<String>, String> {
    let mut all = Vec::new();
    for sample in samples {
        if let Some((one, two)) = answers_differ(&mut Plain::default(), sample) {
            let name = &sample.name;
            return Err(format!("{name}: the original answers\n{one}the plain model\n{two}"));
        }
        all.push(reference::answers(&sample.bytes, &sample.questions)?);
    }
    match unmet(samples, &all) {
        Some(unmet) => Err(unmet),
        None => Ok(all),
    }
}

/// Writes the sample into a folder.
pub fn write(folder: &str) -> Result<(), String> {
    let folder = Path::new(folder);
    let fault = |error| format!("{}: {error}", folder.display());
    std::fs::create_dir_all(folder).map_err(fault)?;
    for (name, bytes) in files()? {
        std::fs::write(folder.join(name), bytes).map_err(fault)?;
    }
    Ok(())
}

/// Tests that a folder holds the sample as it is answered now, and no other file.
pub fn check_folder(folder: &str) -> Result<(), String> {
    let folder = Path::new(folder);
    let fault = |error| format!("{}: {error}", folder.display());
    let files = files()?;
    for (name, bytes) in &files {
        let stored = std::fs::read(folder.join(name));
        if stored.map_err(|error| format!("{name}: {error}"))? != *bytes {
            return Err(format!("{name} is not what the sample has"));
        }
    }
    let stored = std::fs::read_dir(folder).map_err(fault)?.count();
    if stored != files.len() {
        return Err(format!("{stored} files, not {}", files.len()));
    }
    println!("{} files as the sample has them", files.len());
    Ok(())
}

/// The sample holds what it is for: document 01's session, answers that were worked out by hand,
/// and every answer that a journal reaches.
fn check(samples: &[Sample]) -> Result<(), String> {
    if reference::listing(&samples[0].bytes) != format!("edition 1\n{SESSION_LISTING}") {
        return Err("the original's listing of the session is not the documents'".to_string());
    }
    for (name, text) in SCRIPTS {
        by_hand(name, text)?;
    }
    let answered = samples.iter().flat_map(|sample| answers(&sample.bytes));
    let seen: BTreeSet<_> =
        answered.map(|(command, answer)| (command.numbers().0, answer.number as usize)).collect();
    let owed =
        ALLOWED.iter().flat_map(|(tag, answers)| answers.iter().map(|answer| (*tag, *answer)));
    let missing = owed.filter(|pair| !seen.contains(pair) && !BEYOND_A_JOURNAL.contains(pair));
    match missing.map(|(tag, answer)| format!("{tag:02X} never answers {answer}")).next() {
        Some(missing) => Err(missing),
        None => Ok(()),
    }
}

fn by_hand(name: &str, text: &str) -> Result<(), String> {
    let mut reference = Reference::of(edition(text));
    for (number, (command, expected)) in (1..).zip(steps(text)) {
        let answer = reference.run(&command).number;
        if answer != expected {
            let side = reference.side().name();
            return Err(format!(
                "{name}, command {number}, {command}: by hand {expected}, {side} {answer}"
            ));
        }
    }
    Ok(())
}

fn index(samples: &[Sample]) -> String {
    let mut out = INDEX_HEAD.to_string();
    for sample in samples {
        let answers = answers(&sample.bytes);
        let count = |is: &dyn Fn(&Answer) -> bool| answers.iter().filter(|(_, a)| is(a)).count();
        let by = |sources: &[Source]| {
            count(&|answer| answer.verdict.is_some_and(|verdict| sources.contains(&verdict.source)))
        };
        out += &format!(
            "| {} | {} | {} | {} | {} | {} | {} | {} | {} | {} |\n",
            sample.name,
            read_as(&sample.bytes),
            sample.bytes.len(),
            sample.questions.lines().count(),
            count(&|answer| answer.number == 0),
            by(&[Source::Code]),
            by(&[Source::Assert, Source::Other]),
            by(&[Source::Port]),
            count(&|answer| answer.number != 0 && answer.verdict.is_none()),
            sample.what
        );
    }
    out
}

const INDEX_HEAD: &str = "# Journals with the original's listings

Made by `cargo run --release -p harness -- vectors DIR` in oracle/, from the original's text; those of
later editions than the first, which the original has not, from the plain model. NAME.journal is the
replay program's input, NAME.listing everything that it prints; NAME.questions is the input of the
program ask, which answers from that journal, NAME.answers everything that it prints.

The answers to the commands of each journal, by where they come from: accepted; refused with the
original's own code; refused by a bare assert of the original or by another contract, where it has no
code and the number is document 01's for that test; refused by a rule that only the port has; refused
by the plain model. Lines with 13 or 14 are the journal's and not counted.

| journal | edition | bytes | questions | accepted | own code | no code | port | plain | what |
|---|---|---|---|---|---|---|---|---|---|
";

#[cfg(test)]
mod test {
    use super::*;
    use crate::damage::listings_differ;

    #[test]
    fn the_sample_holds_what_it_is_for() {
        assert_eq!(check(&samples()), Ok(()));
    }

    /// Edition 4 adds the rounds that edition 3 refuses, from the thirteenth on.
    #[test]
    fn one_script_has_the_commands_of_two_editions() {
        let script = |name| SCRIPTS.iter().find(|(named, _)| *named == name).unwrap().1;
        let (twelve, sixteen) = (script("37-twelve"), script("37-sixteen"));
        assert_eq!([twelve, sixteen].map(edition), [3, 4]);
        let (twelve, sixteen) = (steps(twelve), steps(sixteen));
        let commands = |steps: &[(Command, u64)]| -> Vec<_> {
            steps.iter().map(|(command, _)| *command).collect()
        };
        assert_eq!(commands(&twelve), commands(&sixteen));
        let part = twelve.iter().zip(&sixteen).find(|(early, late)| early.1 != late.1);
        let Some(((Command::CounterOffer { round: 12, .. }, 7), (_, 0))) = part else {
            panic!("{part:?}")
        };
    }

    #[test]
    fn the_longest_journal_fills_the_program() {
        let samples = samples();
        let length = |name: &str| {
            samples.iter().find(|sample| sample.name == name).map(|sample| sample.bytes.len())
        };
        assert_eq!((length("size-32768"), length("size-32769")), (Some(32_768), Some(32_769)));
    }

    #[test]
    fn the_plain_model_answers_the_same() {
        assert_eq!(check_answers(&samples()).map(drop), Ok(()));
    }

    #[test]
    fn a_slip_that_only_answers_show_is_seen() {
        let mut slipped = Plain::with_slip(Some(plain::Slip::DefaultedActive));
        let samples = samples();
        assert!(samples
            .iter()
            .all(|sample| listings_differ(&mut slipped, &sample.bytes).is_none()));
        assert!(samples.iter().any(|sample| answers_differ(&mut slipped, sample).is_some()));
    }

    #[test]
    fn the_plain_model_lists_the_same() {
        for sample in samples() {
            let differ = listings_differ(&mut Plain::default(), &sample.bytes);
            assert_eq!(differ, None, "{}", sample.name);
        }
    }
}
