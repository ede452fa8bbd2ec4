//! The proved book from Rust: a journal is written from commands as text, replayed, and read.
//!
//! ```
//! use solgaverna::Journal;
//!
//! let mut journal = Journal::new();
//! journal.write("open-account 100 1\ndeposit 100 1 5000\n").unwrap();
//! assert_eq!(journal.listing(), "edition 1\n1 0\n2 0\naccount 1 5000 0 0 0\ntotals 0 0 0\n");
//! assert_eq!(journal.lender(1).unwrap().offered, 0);
//! assert_eq!(journal.ask("account 1\ncount\n").unwrap(), "0 5000 0 0 0\n0 0\n");
//! ```
//!
//! Nothing is kept between calls but the bytes of the journal: every read replays them. A snapshot holds a whole book, so that a
//! journal of its edition can go on from there:
//!
//! ```
//! use solgaverna::Journal;
//!
//! let mut year = Journal::of_edition(3).unwrap();
//! year.write("open-account 100 1\ndeposit 100 1 5000\n").unwrap();
//! let snapshot = year.snapshot().unwrap();
//! let mut day = Journal::of_edition(3).unwrap();
//! day.write("payout 200 1 2000\n").unwrap();
//! assert_eq!(snapshot.listing(&day).unwrap(), "edition 3\n1 0\naccount 1 3000 0 0 0\ntotals 0 0 0\n");
//! let next = snapshot.then(&day).unwrap();
//! # assert_eq!(next.ask(&Journal::of_edition(3).unwrap(), "account 1\n").unwrap(), "0 3000 0 0 0\n");
//! ```
//!
//! Give a thread that calls it 1 MiB of stack or more.

mod calls;
mod questions;
mod snapshot;

pub use questions::{Answer, Question};
pub use snapshot::Snapshot;

use std::fmt;

/// Why a call was refused.
#[derive(Clone, Copy, Debug, PartialEq, Eq)]
pub enum Refusal {
    /// The line of a text, counted from 1, that is no command, or no question where those are asked.
    Line(u64),
    /// The offset of a snapshot's first wrong field.
    Field(u64),
    /// The number of the refusal.
    Number(u64),
}

impl Refusal {
    /// The number: 13 for a line, and for a field.
    pub fn number(&self) -> u64 {
        match self {
            Refusal::Line(_) | Refusal::Field(_) => 13,
            Refusal::Number(number) => *number,
        }
    }
}

impl fmt::Display for Refusal {
    fn fmt(&self, out: &mut fmt::Formatter) -> fmt::Result {
        match self {
            Refusal::Line(line) => write!(out, "line {line} is malformed"),
            Refusal::Field(at) => write!(out, "the field at {at} is wrong"),
            Refusal::Number(number) => write!(out, "refused with {number}"),
        }
    }
}

impl std::error::Error for Refusal {}

/// Which offers are listed.
#[derive(Clone, Copy, Debug, PartialEq, Eq)]
pub enum Offers {
    ByInvoice(u64),
    ByLender(u64),
    ByStatus(u64),
    PendingByInvoice(u64),
    All,
    Page { offset: u64, limit: u64 },
}

#[derive(Clone, Copy, Debug, Default, PartialEq, Eq)]
pub struct Offer {
    pub id: u64,
    pub invoice: u64,
    pub lender: u64,
    pub amount: i64,
    pub rate: u64,
    pub duration: u64,
    pub expires: u64,
    pub status: u64,
    pub funded: u64,
    pub repaid: i64,
}

/// A lender's figures.
#[derive(Clone, Copy, Debug, Default, PartialEq, Eq)]
pub struct Lender {
    pub offered: u64,
    pub accepted: u64,
    pub pending: u64,
    pub repaid: u64,
}

/// The book's totals.
#[derive(Clone, Copy, Debug, Default, PartialEq, Eq)]
pub struct Totals {
    pub offers: u64,
    pub financed: u64,
    pub repaid: u64,
    pub fees: u64,
}

/// The bytes of a journal. `Journal::from` takes any bytes; reads of malformed ones are refused with 13.
#[derive(Clone, Debug, PartialEq, Eq)]
pub struct Journal(Vec<u8>);

/// How many bytes the header has.
const HEADER: usize = 5;
/// A table's rows, and the numbers of an offer.
const MOST_OFFERS: usize = 64;
const NUMBERS: usize = 10;
/// No answer in text is longer: a count, and every offer with its numbers, each of at most twenty digits and a space.
const MOST_ANSWER: usize = 5 + MOST_OFFERS * NUMBERS * 21;
/// A listing has no more bytes past those of its journal.
const LISTING_ROOM: usize = 8192;

/// The text at the start of a buffer.
fn told(mut out: Vec<u8>, size: usize) -> String {
    out.truncate(size);
    String::from_utf8(out).expect("words, digits and spaces")
}

/// Answers in text, in a buffer that grows until they fit.
fn with_room(ask: impl Fn(&mut [u8]) -> Result<usize, Refusal>) -> Result<String, Refusal> {
    let mut out = vec![0; MOST_ANSWER];
    loop {
        match ask(&mut out) {
            Err(Refusal::Number(14)) => out.resize(2 * out.len(), 0),
            size => return Ok(told(out, size?)),
        }
    }
}

impl From<Vec<u8>> for Journal {
    fn from(bytes: Vec<u8>) -> Journal {
        Journal(bytes)
    }
}

impl Default for Journal {
    fn default() -> Journal {
        Journal::new()
    }
}

impl Journal {
    /// A journal of the first edition, without commands.
    pub fn new() -> Journal {
        Journal::titled("").expect("a text without a title is of edition 1")
    }

    /// A journal of an edition, without commands; 13 where there is no such edition.
    pub fn of_edition(edition: u64) -> Result<Journal, Refusal> {
        match edition {
            1 => Ok(Journal::new()),
            later => Journal::titled(&format!("edition {later}\n")).map_err(|_| Refusal::Number(13)),
        }
    }

    fn titled(title: &str) -> Result<Journal, Refusal> {
        let mut bytes = vec![0; HEADER];
        calls::journal(title, &mut bytes)?;
        Ok(Journal(bytes))
    }

    /// The line that says the edition; the first has none.
    fn title(&self) -> Result<String, Refusal> {
        Journal(self.0.iter().copied().take(HEADER).collect()).text()
    }

    pub fn bytes(&self) -> &[u8] {
        &self.0
    }

    /// Adds commands, one a line, in the journal's edition. A line that is none is refused by its number, and nothing is added.
    pub fn write(&mut self, text: &str) -> Result<(), Refusal> {
        let title = self.title()?;
        // a line of k fields has 6 + 2 k bytes or more, and its record 3 + 11 k
        let mut more = vec![0; HEADER + 6 * text.len()];
        let size = calls::journal(&(title.clone() + text), &mut more).map_err(|refusal| match refusal {
            Refusal::Line(line) => Refusal::Line(line - title.lines().count() as u64),
            refusal => refusal,
        })?;
        if more[..HEADER] != self.0[..HEADER] {
            return Err(Refusal::Line(1));
        }
        self.0.extend_from_slice(&more[HEADER..size]);
        Ok(())
    }

    /// The commands as lines of text.
    pub fn text(&self) -> Result<String, Refusal> {
        // a record of k fields has 3 + 11 k bytes, k from 2 on, and its line at most 18 + 21 k: a name, k numbers, a newline
        let mut out = vec![0; 3 * self.0.len()];
        let size = calls::text(&self.0, &mut out)?;
        out.truncate(size);
        Ok(String::from_utf8(out).expect("names, digits and spaces"))
    }

    /// What a replay prints: an answer for each command, the accounts, the totals.
    pub fn listing(&self) -> String {
        let mut out = vec![0; self.0.len() + LISTING_ROOM];
        let size = calls::listing(&self.0, &mut out).expect("a listing has at most 7,358 bytes more than its journal");
        told(out, size)
    }

    pub fn offers(&self, which: Offers) -> Result<Vec<Offer>, Refusal> {
        let mut numbers = [0; MOST_OFFERS * NUMBERS];
        let count = calls::offers(&self.0, which, &mut numbers)?;
        Ok(numbers.chunks_exact(NUMBERS).take(count).map(offer).collect())
    }

    /// An account that was never opened has zeros.
    pub fn lender(&self, account: u64) -> Result<Lender, Refusal> {
        let [offered, accepted, pending, repaid] = calls::lender(&self.0, account)?;
        Ok(Lender { offered, accepted, pending, repaid })
    }

    pub fn totals(&self) -> Result<Totals, Refusal> {
        let [offers, financed, repaid, fees] = calls::totals(&self.0)?;
        Ok(Totals { offers, financed, repaid, fees })
    }

    /// The answers to questions, one a line, as the program `ask` writes them.
    pub fn ask(&self, questions: &str) -> Result<String, Refusal> {
        with_room(|out| calls::ask(&self.0, questions, out))
    }

    /// The book after the journal, as a snapshot.
    pub fn snapshot(&self) -> Result<Snapshot, Refusal> {
        Snapshot::written(|out| calls::snapshot(&self.0, out))
    }

    /// The answers to lookups, in their order: the journal is replayed once for all of them.
    pub fn answers(&self, questions: &[Question]) -> Result<Vec<Answer>, Refusal> {
        let words: Vec<_> = questions.iter().map(|question| question.words()).collect();
        let mut out = vec![[0; 12]; words.len()];
        calls::answers(&self.0, &words, &mut out)?;
        Ok(out.into_iter().map(Answer).collect())
    }
}

fn offer(numbers: &[u64]) -> Offer {
    Offer {
        id: numbers[0],
        invoice: numbers[1],
        lender: numbers[2],
        amount: numbers[3] as i64,
        rate: numbers[4],
        duration: numbers[5],
        expires: numbers[6],
        status: numbers[7],
        funded: numbers[8],
        repaid: numbers[9] as i64,
    }
}
