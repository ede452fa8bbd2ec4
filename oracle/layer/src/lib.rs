//! The port's layer around the original contract.
//!
//! The original has no accounts, deposits, ranges or journal; document 01 gives them to the port.
//! This layer holds them over the original's own storage and leaves every decision that the
//! original takes to the original. Document 01's order of tests is kept as follows.
//!
//! - **1, Paused.** The original tests it first. The layer tests it only in commands that the
//!   original lacks, and where the caller has no account (next).
//! - **4, a caller without an account** comes right after 1. The layer answers before the call: 1
//!   if the book is paused, else 4.
//! - **3, an amount above 10^12** (create, amend, counter): the amount is handed over as 0, which
//!   the original's own terms check refuses at that very place.
//! - **3, an unlisted schedule code**: there is no such value in the original's type. The count is
//!   handed over as 0, whose refusal stands at the same place (three tests of 3 in a row).
//! - **3, an unlisted status** (41) stands between the caller's 6 and the row's 4. The original's
//!   update of the totals is called with two zeros: it takes the tests before 3 and no more.
//! - **11 and 12**: "a stored number would leave its range" is tested where the number is stored,
//!   by the stand-ins' `Stored` types, so the original's order of writes decides.
//! - **After an accepted call** the layer tests what the original does not: 42's amount (11), 43's
//!   flag (3) and row (4), 54's account (4). Each is the last of its command's list.
//! - **9, 10, 11 of the transfer** are the token's: another contract's refusal.
//!
//! 15 never occurs: the layer's book is made by its own commands or from sound rows. The original's
//! rules are those of edition 1, so that it has no other.

mod calls;
mod port;
mod queries;
mod state;
mod verdict;

pub use verdict::{Source, Verdict};

use journal::Command;
use side::{Book, Query, Reply, Side};
use soroban_sdk::{Address, By, Env, Outcome, Refusal, Stop};

/// The only edition that the original has.
pub const EDITION: u64 = 1;

pub struct Original {
    env: Env,
    // Ids of the opened accounts, ascending.
    accounts: Vec<u64>,
    // Off only where a test shows what the original does without the port's rules.
    rules: bool,
}

impl Default for Original {
    fn default() -> Original {
        Original::new(true)
    }
}

impl Original {
    /// The original's own commands with no rule of the port: no range, no number of rows, and
    /// parties that need no account.
    pub fn bare() -> Original {
        Original::new(false)
    }

    fn new(rules: bool) -> Original {
        let env = Env::with_ranges(rules);
        let original = Original { env, accounts: Vec::new(), rules };
        original.construct();
        original
    }

    /// Runs one command. A refused one leaves everything as it was, as the chain does.
    pub fn run(&mut self, command: &Command) -> Verdict {
        self.env.set_time(command.now());
        let signer = caller(command).map(Address::account);
        let ended = self.env.transaction(signer, || self.command(command));
        if let (Ok(()), Command::OpenAccount { caller, .. }) = (&ended, command) {
            let place = self.accounts.partition_point(|id| id < caller);
            self.accounts.insert(place, *caller);
        }
        Verdict::of(ended)
    }

    /// The whole book as rows.
    pub fn book(&self) -> Book {
        let mut flat = Vec::new();
        self.dump(&mut flat);
        Book::of_flat(&flat).expect("a dump shows a book")
    }

    fn is_open(&self, account: u64) -> bool {
        self.accounts.binary_search(&account).is_ok()
    }
}

/// A refusal of the port's own rules.
fn refused<T>(number: u64) -> Outcome<T> {
    let number = number as u32;
    Err(Stop::Refused(Refusal { by: By::Port, number, line: 0 }))
}

fn require(holds: bool, number: u64) -> Outcome<()> {
    if holds {
        Ok(())
    } else {
        refused(number)
    }
}

impl Original {
    /// A test that the port adds to a command of the original's.
    fn rule(&self, holds: bool, number: u64) -> Outcome<()> {
        require(holds || !self.rules, number)
    }
}

fn caller(command: &Command) -> Option<u64> {
    let (tag, numbers) = command.numbers();
    (tag < 0x51).then_some(numbers[0x02])
}

impl Side for Original {
    fn name(&self) -> &'static str {
        "the original"
    }

    fn reset(&mut self, edition: u64) {
        assert_eq!(edition, EDITION, "the original has no other edition");
        *self = Original::new(self.rules);
    }

    fn load(&mut self, book: &[u64]) {
        let book = Book::of_flat(book).expect("the flat form of a book");
        self.reset(book.edition);
        self.take_rows(&book);
    }

    fn apply(&mut self, record: &[u8]) -> u64 {
        match journal::read(EDITION, record, 0) {
            journal::Step::Command(command, next) if next == record.len() => {
                self.run(&command).number
            }
            _ => journal::answer::JOURNAL_MALFORMED,
        }
    }

    fn dump(&self, out: &mut Vec<u64>) {
        self.show_rows(out);
    }

    fn ask(&mut self, query: Query, out: &mut [u64]) -> Reply {
        self.answer(query, out)
    }

    fn listing(&mut self, journal: &[u8]) -> Vec<u8> {
        self.replay(journal).into_bytes()
    }

    fn answers(&mut self, journal: &[u8], questions: &str) -> Result<String, String> {
        self.replay(journal);
        side::answered(self, questions)
    }
}

impl Original {
    /// The replay program's output, from a fresh book, for a journal of edition 1 or a bad header.
    pub fn replay(&mut self, journal: &[u8]) -> String {
        if journal.len() > side::PROGRAM_HOLDS {
            return side::TOO_LONG.to_string();
        }
        let edition = journal::edition_of(journal);
        self.reset(edition.unwrap_or(EDITION));
        let mut out = String::new();
        match edition {
            Some(edition) => {
                side::edition_line(edition, &mut out);
                self.replay_records(journal, &mut out);
            }
            None => side::malformed_line(0, 0, &mut out),
        }
        side::tables(&self.book(), &mut out);
        out
    }

    fn replay_records(&mut self, journal: &[u8], out: &mut String) {
        let mut at = journal::HEADER_SIZE;
        for number in 1.. {
            match journal::read(EDITION, journal, at) {
                journal::Step::Command(command, next) => {
                    side::answer_line(number, self.run(&command).number, out);
                    at = next;
                }
                journal::Step::Malformed => return side::malformed_line(number, at, out),
                journal::Step::End => return,
            }
        }
    }
}
