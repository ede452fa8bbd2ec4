//! What a side is held against: the original in its edition, the plain model in later ones.

use journal::Command;
use layer::{Original, Verdict};
use plain::Plain;
use side::{Book, Side};

pub enum Reference {
    Original(Box<Original>),
    Plain(Box<Plain>),
}

/// An answer to a command; where the original gave it, with where it comes from.
#[derive(Clone, Copy, Debug)]
pub struct Answer {
    pub number: u64,
    pub verdict: Option<Verdict>,
}

impl Reference {
    /// A fresh book of an edition.
    pub fn of(edition: u64) -> Reference {
        if edition == layer::EDITION {
            return Reference::Original(Box::default());
        }
        let mut plain = Box::<Plain>::default();
        plain.reset(edition);
        Reference::Plain(plain)
    }

    /// The one that reads a journal: by its header, and the original where that is bad.
    pub fn of_journal(bytes: &[u8]) -> Reference {
        Reference::of(read_as(bytes))
    }

    pub fn side(&mut self) -> &mut dyn Side {
        match self {
            Reference::Original(original) => &mut **original,
            Reference::Plain(plain) => &mut **plain,
        }
    }

    pub fn run(&mut self, command: &Command) -> Answer {
        match self {
            Reference::Original(original) => {
                let verdict = original.run(command);
                Answer { number: verdict.number, verdict: Some(verdict) }
            }
            Reference::Plain(plain) => Answer { number: plain.run(command), verdict: None },
        }
    }

    /// The whole book as rows.
    pub fn book(&self) -> Book {
        match self {
            Reference::Original(original) => original.book(),
            Reference::Plain(plain) => plain.book().clone(),
        }
    }
}

/// The edition of the book that a journal leaves: a bad header leaves a fresh one of edition 1.
pub fn read_as(bytes: &[u8]) -> u64 {
    journal::edition_of(bytes).unwrap_or(1)
}

/// The listing of a journal.
pub fn listing(bytes: &[u8]) -> String {
    let listing = Reference::of_journal(bytes).side().listing(bytes);
    String::from_utf8(listing).expect("a listing is text")
}

/// The answers to questions about the book that a journal leaves.
pub fn answers(bytes: &[u8], questions: &str) -> Result<String, String> {
    Reference::of_journal(bytes).side().answers(bytes, questions)
}

/// With where it comes from, as the report of a difference says it.
impl std::fmt::Display for Answer {
    fn fmt(&self, out: &mut std::fmt::Formatter) -> std::fmt::Result {
        write!(out, "{}", self.number)?;
        match self.verdict {
            Some(Verdict { source, line, .. }) => write!(out, " ({source:?}, its line {line})"),
            None => Ok(()),
        }
    }
}
