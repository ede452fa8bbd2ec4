//! The original's answer with where it comes from.

use soroban_sdk::{By, Outcome, Stop};

#[derive(Clone, Copy, Debug, PartialEq, Eq, Hash, PartialOrd, Ord)]
pub enum Source {
    Accepted,
    /// A code of the contract's own.
    Code,
    /// A bare `assert!` or `panic!` of the original: it has no code. The number is the one that
    /// document 01 gives to this test, known by its message.
    Assert,
    /// Another contract or the host refused: the original has no code for it either. The number
    /// is the one that document 01 gives.
    Other,
    /// A rule that only the port has.
    Port,
}

impl Source {
    /// Whether the original itself gives the number. Elsewhere only "refused" is owed.
    pub fn has_code(self) -> bool {
        !matches!(self, Source::Assert | Source::Other)
    }
}

#[derive(Clone, Copy, Debug, PartialEq, Eq)]
pub struct Verdict {
    pub number: u64,
    pub source: Source,
    /// The line of the original's text that refused, or 0.
    pub line: u32,
}

/// The messages of the original's bare asserts, with document 01's number for each test.
const MESSAGES: [(&str, u64); 13] = [
    ("offer amount must be greater than zero", 3),
    ("interest_rate must be greater than zero", 3),
    ("interest_rate must be at most 10000 bps", 3),
    ("duration must be at least 1 day (86400 seconds)", 3),
    ("duration must be at most 365 days", 3),
    ("Invoice must be Pending to accept offers", 7),
    ("lender cannot finance their own invoice", 3),
    ("offer amount cannot exceed invoice amount", 3),
    ("count must be at least 1", 3),
    ("count must be at most 1200 installments", 3),
    ("first_due must be in the future", 3),
    ("installment amount must be greater than zero", 3),
    ("Repayment contract not configured", 6),
];

impl Verdict {
    pub fn of(ended: Outcome<()>) -> Verdict {
        match ended {
            Ok(()) => Verdict { number: 0, source: Source::Accepted, line: 0 },
            Err(Stop::Refused(refusal)) => {
                let source = match refusal.by {
                    By::Contract => Source::Code,
                    By::Other => Source::Other,
                    By::Port => Source::Port,
                };
                Verdict { number: refusal.number.into(), source, line: refusal.line }
            }
            Err(Stop::Panicked(text, line)) => {
                let number = asserted(&text, line);
                Verdict { number, source: Source::Assert, line }
            }
        }
    }
}

/// A panic that is not one of the original's asserts is a fault of the stand-ins, never an answer.
fn asserted(text: &str, line: u32) -> u64 {
    let listed = MESSAGES.iter().find(|(message, _)| *message == text);
    match listed {
        Some((_, number)) if line > 0 => *number,
        _ => panic!("the original stopped unexpectedly, at its line {line}: {text}"),
    }
}
