//! Commands that lead deep: most are meant to be accepted, some have one field spoiled.

mod offers;
mod others;
mod plan;
mod spoil;
mod values;

use journal::Command;
use side::Book;

use crate::chance::Chance;
pub use plan::Plan;

pub struct Generator {
    chance: Chance,
    pub plan: Plan,
    clock: u64,
    // The offer that most commands are about.
    focus: u64,
}

/// What each command is for, by tag, beside its weight in a book that has all its rows.
const WEIGHTS: [(u8, u64); 24] = [
    (0x21, 2),
    (0x22, 10),
    (0x23, 4),
    (0x24, 10),
    (0x25, 6),
    (0x26, 3),
    (0x31, 10),
    (0x32, 3),
    (0x33, 5),
    (0x34, 3),
    (0x35, 40),
    (0x36, 40),
    (0x37, 8),
    (0x38, 12),
    (0x41, 10),
    (0x42, 10),
    (0x43, 5),
    (0x44, 5),
    (0x51, 1),
    (0x52, 1),
    (0x53, 3),
    (0x54, 3),
    (0x55, 4),
    (0x56, 3),
];

const MOST_ROWS: usize = 64;
pub(super) const DAY: u64 = 86_400;
pub(super) const YEAR: u64 = 31_536_000;
pub(super) const TRILLION: u64 = 1_000_000_000_000;
pub(super) const MOST_HELD: u64 = 4_000_000_000_000_000;
/// Some of them are listed ones in 32 bits.
pub(super) const UNKNOWN_KINDS: [u64; 5] = [2, 1 << 32, (1 << 32) + 1, 1 << 63, u64::MAX];

impl Generator {
    pub fn new(chance: Chance, plan: Plan) -> Generator {
        let clock = plan.clock;
        Generator { chance, plan, clock, focus: 0 }
    }

    pub fn next(&mut self, book: &Book) -> Command {
        let tag = self.tag(book);
        let command = self.meant(tag, book);
        if self.chance.percent(self.plan.spoiled) {
            self.spoil(&command, book)
        } else {
            command
        }
    }

    /// Rows that are no longer Pending are made up for.
    fn tag(&mut self, book: &Book) -> u8 {
        let invoices = book.invoices.iter().filter(|row| row.status == 0).count();
        let offers = book.offers.iter().filter(|row| self.is_open(book, row)).count();
        let wanted = |rows: usize, live: usize, aim: usize| rows < MOST_ROWS && live < aim;
        let long = self.long(book).is_some();
        let raised = |tag: u8, weight: u64| match tag {
            0x21 if book.accounts.len() < self.plan.accounts => 80,
            0x22 if book.accounts.iter().any(|row| row.balance == 0) => 30,
            0x24 if book.accounts.iter().any(|row| row.allowance == 0) => 30,
            0x25 if wanted(book.invoices.len(), invoices, self.plan.invoices) => 40,
            0x31 if wanted(book.offers.len(), offers, self.plan.offers) => 60,
            0x35 | 0x36 if long => 120,
            0x52 if book.paused => 200,
            0x54 if book.repayment.is_none() => 15,
            0x55 if book.accounts.iter().any(|row| row.blacklisted == 1) => 15,
            _ => weight,
        };
        let weights = WEIGHTS.map(|(tag, weight)| raised(tag, weight));
        WEIGHTS[self.chance.weighted(&weights)].0
    }

    fn meant(&mut self, tag: u8, book: &Book) -> Command {
        match tag {
            0x21..0x31 => self.port_command(tag, book),
            0x31 => self.create(book),
            0x32..0x41 => match self.chosen(tag, book).cloned() {
                Some(offer) => self.on_offer(tag, book, &offer),
                None => self.create(book),
            },
            0x41..0x51 => self.repayment(tag, book),
            _ => self.admin(tag, book),
        }
    }
}
