//! A plain model of the book, written from documents 01 and 02 alone and not from the original.
//!
//! It is a second reading of the rules, held against the original in edition 1 and against the proved
//! book in later ones. It prefers the documents' order of words to speed: each command works on a
//! copy of the book, which is dropped if the command is refused.

mod admin;
mod asking;
pub mod edition;
mod money;
mod negotiation;
mod offers;
mod port;
mod queries;
mod reading;
mod repayment;
pub mod rescue;
pub mod schedule;
mod settlement;
pub mod snapshot;
mod sound;
mod terms;

use journal::Command;
use side::{Book, Query, Refused, Reply, Side};

pub use sound::sound;

const UNSOUND: u64 = 15;
const MALFORMED: u64 = 13;
const SHORT: u64 = 14;

/// A test of document 01's lists: passes, or gives its number.
type Test<T = ()> = Result<T, u64>;

fn test(holds: bool, number: u64) -> Test {
    if holds {
        Ok(())
    } else {
        Err(number)
    }
}

/// Mistakes that can be planted, to see that the comparison finds each.
#[derive(Clone, Copy, Debug, PartialEq, Eq)]
pub enum Slip {
    /// An amendment agrees with any old counter, not only the latest.
    AnyCounter,
    /// The round stays when the agreement it led to is refused.
    RoundStays,
    /// Withdrawing lowers the lender's offered total.
    WithdrawLowers,
    /// Every round moves the deadline.
    DeadlineMoves,
    /// Defaulted offers count as active.
    DefaultedActive,
    /// Amend tests the amount against the invoice's after the negotiation checks.
    AmountLate,
    /// Amend and counter refuse the invoice's amount itself, not only more.
    AmountReached,
    /// A thirteenth round is refused in every edition.
    TwelveRounds,
    /// Sixteen rounds may be added in every edition.
    SixteenRounds,
    /// Every installment is the stored one, the last too, in every edition.
    CentsLeft,
    /// The last installment goes by the offer's present terms, not by those that are kept.
    PresentTerms,
    /// A schedule's kind is tested last, where installment 0 is.
    KindLate,
    /// A schedule's kind is cut to 32 bits.
    KindCut,
    /// The last installment of a falling schedule repays no more principal than the others.
    RestKept,
    /// Every installment of a falling schedule has the first one's interest.
    InterestStays,
}

/// Each with the first edition in which it shows.
pub const SLIPS: [(Slip, u64); 15] = [
    (Slip::AnyCounter, 1),
    (Slip::RoundStays, 1),
    (Slip::WithdrawLowers, 1),
    (Slip::DeadlineMoves, 1),
    (Slip::DefaultedActive, 1),
    (Slip::AmountLate, 2),
    (Slip::AmountReached, 2),
    (Slip::TwelveRounds, 4),
    (Slip::SixteenRounds, 1),
    (Slip::CentsLeft, 5),
    (Slip::PresentTerms, 5),
    (Slip::KindLate, 5),
    (Slip::KindCut, 5),
    (Slip::RestKept, 5),
    (Slip::InterestStays, 5),
];

pub struct Plain {
    book: Book,
    // Commands keep a sound book sound, so it is tested where a book comes in.
    sound: bool,
    slip: Option<Slip>,
}

/// A fresh book of edition 1.
impl Default for Plain {
    fn default() -> Plain {
        Plain::with_slip(None)
    }
}

impl Plain {
    pub fn with_slip(slip: Option<Slip>) -> Plain {
        Plain { book: edition::fresh(1), sound: true, slip }
    }

    pub fn book(&self) -> &Book {
        &self.book
    }

    /// Runs one command and answers with its number.
    pub fn run(&mut self, command: &Command) -> u64 {
        if !self.sound {
            return UNSOUND;
        }
        let mut desk = Desk { book: self.book.clone(), slip: self.slip, kept: None };
        match desk.command(command) {
            Ok(()) => {
                self.book = desk.book;
                0
            }
            Err(number) => {
                if let Some(kept) = desk.kept {
                    self.book = kept;
                }
                number
            }
        }
    }
}

/// The copy that a command works on.
struct Desk {
    book: Book,
    slip: Option<Slip>,
    // Only the slip `RoundStays` keeps anything of a refused command.
    kept: Option<Book>,
}

impl Desk {
    fn slips(&self, slip: Slip) -> bool {
        self.slip == Some(slip)
    }

    fn not_paused(&self) -> Test {
        test(!self.book.paused, 1)
    }

    /// The tests before every list of a party's command: 1, then 4 without an account.
    fn party(&self, caller: u64) -> Test {
        self.not_paused()?;
        self.account(caller).map(drop)
    }

    fn account(&self, id: u64) -> Test<usize> {
        self.book.accounts.iter().position(|row| row.id == id).ok_or(4)
    }

    fn invoice(&self, id: u64) -> Test<usize> {
        self.book.invoices.iter().position(|row| row.id == id).ok_or(4)
    }

    fn offer(&self, id: u64) -> Test<usize> {
        self.book.offers.iter().position(|row| row.id == id).ok_or(4)
    }

    fn command(&mut self, command: &Command) -> Test {
        match *command {
            Command::OpenAccount { caller, .. } => self.open(caller),
            Command::Deposit { caller, amount, .. } => self.deposit(caller, amount),
            Command::Payout { caller, amount, .. } => self.payout(caller, amount),
            Command::Approve { caller, amount, .. } => self.approve(caller, amount),
            Command::RegisterInvoice { caller, id, amount, .. } => {
                self.register(caller, id, amount)
            }
            Command::CancelInvoice { caller, id, .. } => self.cancel(caller, id),
            Command::CreateOffer { .. }
            | Command::WithdrawOffer { .. }
            | Command::AcceptOffer { .. }
            | Command::RejectOffer { .. }
            | Command::AmendOffer { .. }
            | Command::CounterOffer { .. }
            | Command::CloseNegotiation { .. }
            | Command::ScheduleRepayment { .. } => self.offer_command(command),
            Command::UpdateStatus { caller, id, code, .. } => self.set_status(caller, id, code),
            Command::UpdateRepaid { caller, id, amount, .. } => self.set_repaid(caller, id, amount),
            Command::UpdateLenderRepaid { caller, id, code, .. } => {
                self.lender_repaid(caller, id, code)
            }
            Command::UpdateTotalsRepaid { caller, amount, fee, .. } => {
                self.totals_repaid(caller, amount, fee)
            }
            _ => self.admin_command(command),
        }
    }
}

impl Side for Plain {
    fn name(&self) -> &'static str {
        if self.slip.is_none() {
            "the plain model"
        } else {
            "the model with a slip"
        }
    }

    fn reset(&mut self, edition: u64) {
        assert!(edition::is_listed(edition), "there is no edition {edition}");
        self.book = edition::fresh(edition);
        self.sound = true;
    }

    fn load(&mut self, book: &[u64]) {
        self.book = Book::of_flat(book).expect("the flat form of a book");
        self.sound = sound(&self.book);
    }

    fn apply(&mut self, record: &[u8]) -> u64 {
        match reading::one_record(self.book.edition, record) {
            Some(command) => self.run(&command),
            None => MALFORMED,
        }
    }

    fn dump(&self, out: &mut Vec<u64>) {
        self.book.flat(out);
    }

    fn ask(&mut self, query: Query, out: &mut [u64]) -> Reply {
        if !self.sound {
            return Reply::refused(UNSOUND);
        }
        match queries::answer(&self.book, query, self.slip) {
            Ok(numbers) => Reply::write(&numbers, out),
            Err(number) => Reply::refused(number),
        }
    }

    fn listing(&mut self, journal: &[u8]) -> Vec<u8> {
        reading::listing(self, journal).into_bytes()
    }

    fn answers(&mut self, journal: &[u8], questions: &str) -> Result<String, String> {
        asking::answers(self, journal, questions)
    }

    fn snapshot(&mut self, room: usize) -> Result<Vec<u8>, u64> {
        snapshot::write_within(&self.book, room)
    }

    fn restore(&mut self, snapshot: &[u8]) -> Result<(), Refused> {
        self.book = snapshot::read(snapshot)?;
        self.sound = true;
        Ok(())
    }

    fn listing_from(&mut self, journal: &[u8]) -> Vec<u8> {
        reading::listing_from(self, journal).into_bytes()
    }
}
