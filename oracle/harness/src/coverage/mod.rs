//! How often each command gave each answer, which paths were walked and, where the original answers,
//! which of its refusing lines were met.

mod lines;
mod paths;

use std::collections::BTreeMap;
use std::fmt::Write;

use journal::{kinds, Command};
use layer::Source;
use side::Book;

use crate::reference::Answer;
use lines::{refusing_lines, BEYOND};
use paths::{names, walked};

/// The answers that document 01's lists allow each command, by tag.
pub const ALLOWED: [(u8, &[usize]); 24] = [
    (0x21, &[0, 1, 5, 12]),
    (0x22, &[0, 1, 3, 4, 11]),
    (0x23, &[0, 1, 3, 4, 10]),
    (0x24, &[0, 1, 3, 4]),
    (0x25, &[0, 1, 3, 4, 5, 12]),
    (0x26, &[0, 1, 4, 6, 7]),
    (0x31, &[0, 1, 2, 3, 4, 5, 7, 11, 12]),
    (0x32, &[0, 1, 4, 6, 7]),
    (0x33, &[0, 1, 4, 6, 7, 8, 9, 10, 11]),
    (0x34, &[0, 1, 4, 6, 7]),
    (0x35, &[0, 1, 2, 3, 4, 6, 7, 8, 9, 10, 11]),
    (0x36, &[0, 1, 2, 3, 4, 6, 7, 8, 9, 10, 11]),
    (0x37, &[0, 1, 4, 6, 7]),
    (0x38, &[0, 1, 3, 4, 6, 7]),
    (0x41, &[0, 1, 3, 4, 6]),
    (0x42, &[0, 1, 4, 6, 11]),
    (0x43, &[0, 1, 3, 4, 6, 11]),
    (0x44, &[0, 1, 4, 6, 11]),
    (0x51, &[0, 6]),
    (0x52, &[0, 6]),
    (0x53, &[0, 1, 3, 6]),
    (0x54, &[0, 1, 4, 6]),
    (0x55, &[0, 1, 3, 4, 6]),
    (0x56, &[0, 1, 3, 6]),
];

const ANSWERS: usize = 13;

pub struct Coverage {
    edition: u64,
    counts: BTreeMap<(u8, usize), u64>,
    sources: BTreeMap<Source, u64>,
    lines: BTreeMap<u32, u64>,
    paths: BTreeMap<&'static str, u64>,
}

impl Coverage {
    pub fn of(edition: u64) -> Coverage {
        let (counts, sources) = (BTreeMap::new(), BTreeMap::new());
        Coverage { edition, counts, sources, lines: BTreeMap::new(), paths: BTreeMap::new() }
    }

    /// Notes the paths that a command walked from one book to the next.
    pub fn add_paths(&mut self, command: &Command, answer: u64, before: u64, books: [&Book; 2]) {
        for path in walked(command, answer, before, books) {
            *self.paths.entry(path).or_default() += 1;
        }
    }

    /// How often each path was walked.
    pub fn paths(&self) -> String {
        let count = |path| self.paths.get(path).copied().unwrap_or(0);
        names(self.edition).map(|path| format!("{:>10} {path}\n", count(path))).collect()
    }

    pub fn add(&mut self, command: &Command, answer: &Answer) {
        let tag = command.numbers().0;
        *self.counts.entry((tag, answer.number as usize)).or_default() += 1;
        let Some(verdict) = answer.verdict else { return };
        *self.sources.entry(verdict.source).or_default() += 1;
        if verdict.line > 0 {
            *self.lines.entry(verdict.line).or_default() += 1;
        }
    }

    fn count(&self, tag: u8, answer: usize) -> u64 {
        self.counts.get(&(tag, answer)).copied().unwrap_or(0)
    }

    /// One row for each command, one column for each answer.
    pub fn table(&self) -> String {
        let mut out = format!("{:<21}", "command");
        (0..ANSWERS).for_each(|answer| write!(out, "{answer:>8}").unwrap());
        out.push('\n');
        for kind in kinds(self.edition) {
            write!(out, "{:02X} {:<18}", kind.tag, kind.name).unwrap();
            for answer in 0..ANSWERS {
                match self.count(kind.tag, answer) {
                    0 => write!(out, "{:>8}", ".").unwrap(),
                    count => write!(out, "{count:>8}").unwrap(),
                }
            }
            out.push('\n');
        }
        out
    }

    /// Where the original's answers came from.
    pub fn sources(&self) -> String {
        let named = |source: &Source| match source {
            Source::Accepted => "accepted",
            Source::Code => "refused with the original's own code",
            Source::Assert => "refused by a bare assert (no code; number by its message)",
            Source::Other => "refused by another contract or the host (no code)",
            Source::Port => "refused by a rule of the port alone",
        };
        let lines =
            self.sources.iter().map(|(source, count)| format!("{count:>10} {}\n", named(source)));
        lines.collect()
    }

    /// Answers that document 01 allows and that never came, or came and are not allowed.
    pub fn unexpected(&self) -> Vec<String> {
        let mut found = Vec::new();
        for (tag, allowed) in ALLOWED {
            for answer in 0..ANSWERS {
                let (seen, listed) = (self.count(tag, answer) > 0, allowed.contains(&answer));
                if seen && !listed {
                    found.push(format!("command {tag:02X} answered {answer}, which is not listed"));
                } else if listed && !seen {
                    found.push(format!("command {tag:02X} never answered {answer}"));
                }
            }
        }
        found
    }

    pub fn unwalked(&self) -> Vec<String> {
        let unwalked = names(self.edition).filter(|path| !self.paths.contains_key(path));
        unwalked.map(|path| format!("never: {path}")).collect()
    }

    /// Whether it was the original that answered.
    pub fn of_original(&self) -> bool {
        self.edition == layer::EDITION
    }

    /// The lines of the original that can refuse and never did, apart from those that no command
    /// of the journal can reach.
    pub fn unmet_lines(&self) -> Vec<String> {
        let lines = if self.of_original() { refusing_lines() } else { Vec::new() };
        let unmet = lines.iter().filter(|(line, _)| !self.lines.contains_key(line));
        let owed = unmet.filter(|(line, _)| !BEYOND.iter().any(|(beyond, _)| beyond == line));
        owed.map(|(line, text)| format!("line {line} never refused: {text}")).collect()
    }

    pub fn lines_met(&self) -> String {
        let all = refusing_lines().len();
        let (met, beyond) = (self.lines.len(), BEYOND.len());
        format!("{met} of the original's {all} refusing lines met, {beyond} beyond any journal")
    }
}

#[cfg(test)]
mod test {
    use super::*;

    #[test]
    fn every_command_has_its_answers() {
        let tags = kinds(journal::LATEST).map(|kind| kind.tag);
        assert!(tags.eq(ALLOWED.iter().map(|(tag, _)| *tag)));
    }

    #[test]
    fn the_second_edition_owes_its_refusals() {
        let owed = |edition| Coverage::of(edition).unwalked();
        let new = [
            "never: an amendment above the invoice's amount is refused",
            "never: a counter above the invoice's amount is refused",
            "never: an amendment is refused for its missing invoice",
        ];
        assert!(new.iter().all(|path| owed(2).iter().any(|owed| owed == path)));
        assert!(new.iter().all(|path| owed(1).iter().all(|owed| owed != path)));
    }

    #[test]
    fn the_fourth_edition_owes_its_rounds() {
        let owed = |edition| Coverage::of(edition).unwalked();
        let new = [
            "never: an amendment is the thirteenth round",
            "never: a counter is the thirteenth round",
            "never: a seventeenth round is refused",
        ];
        assert!(new.iter().all(|path| owed(4).iter().any(|owed| owed == path)));
        assert!(new.iter().all(|path| owed(3).iter().all(|owed| owed != path)));
    }

    #[test]
    fn the_fifth_edition_owes_its_sums() {
        let owed = |edition| Coverage::of(edition).unwalked();
        let new = [
            "never: an installment before the last is partly paid",
            "never: only what the others leave is owed on the last installment",
            "never: an amount is repaid on a schedule of earlier terms",
            "never: an unknown kind is refused",
            "never: a falling schedule of less than one an installment is refused",
            "never: a falling installment is paid by its sum, not by so many first ones",
        ];
        assert!(new.iter().all(|path| owed(5).iter().any(|owed| owed == path)));
        assert!(new.iter().all(|path| owed(4).iter().all(|owed| owed != path)));
    }
}
