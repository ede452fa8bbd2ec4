//! The port's commands, repayment's updates and the admin commands.

use journal::Command;
use plain::edition::keeps_terms;
use plain::schedule::sums;
use side::{Account, Book, Offer};

use super::{Generator, MOST_HELD, TRILLION};

impl Generator {
    pub(super) fn port_command(&mut self, tag: u8, book: &Book) -> Command {
        let (now, caller) = (self.time(None), self.any_account(book));
        match tag {
            0x21 => Command::OpenAccount { now, caller: self.new_id() },
            0x22 => {
                let amount = (self.amount() * self.plan.wealth).min(TRILLION as i64);
                let caller = self.poorest(book, caller, |account| account.balance);
                Command::Deposit { now, caller, amount }
            }
            0x23 => Command::Payout { now, caller, amount: self.amount() },
            0x24 => {
                let amount = match self.chance.below(8) {
                    0 => self.chance.pick(&[0, MOST_HELD as i64]),
                    _ => (self.amount() * self.plan.wealth).min(MOST_HELD as i64),
                };
                let caller = self.poorest(book, caller, |account| account.allowance);
                Command::Approve { now, caller, amount }
            }
            0x25 => {
                let amount = (self.amount() * 2).min(TRILLION as i64);
                Command::RegisterInvoice { now, caller, id: self.new_id(), amount }
            }
            _ => self.cancel(now, book),
        }
    }

    /// Every other time the account that has least, so that settlements find money.
    fn poorest(&mut self, book: &Book, caller: u64, figure: fn(&Account) -> i64) -> u64 {
        let poorest = book.accounts.iter().min_by_key(|account| figure(account));
        poorest.filter(|_| self.chance.percent(50)).map_or(caller, |account| account.id)
    }

    fn cancel(&mut self, now: u64, book: &Book) -> Command {
        let rows = book.invoices.len() as u64;
        if rows == 0 {
            return Command::CancelInvoice {
                now,
                caller: self.any_account(book),
                id: self.new_id(),
            };
        }
        let invoice = book.invoices[self.chance.below(rows) as usize];
        Command::CancelInvoice { now, caller: invoice.originator, id: invoice.id }
    }

    pub(super) fn repayment(&mut self, tag: u8, book: &Book) -> Command {
        let offer = self.any_offer(book);
        let (id, now) = (offer.map_or(0, |offer| offer.id), self.time(offer));
        let caller = book.repayment.unwrap_or_else(|| self.any_account(book));
        match tag {
            0x41 => {
                let code = self.chance.pick(&[0, 0, 1, 2, 3, 4, 5]);
                Command::UpdateStatus { now, caller, id, code }
            }
            0x42 => {
                let by_sums = keeps_terms(book.edition) && self.chance.percent(60);
                let amount = if by_sums { self.about_sum(offer) } else { self.repaid(offer) };
                Command::UpdateRepaid { now, caller, id, amount }
            }
            0x43 => {
                let code = self.chance.pick(&[0, 1, 1]);
                Command::UpdateLenderRepaid { now, caller, id: self.any_account(book), code }
            }
            _ => {
                let (amount, fee) = (self.signed(), self.signed());
                Command::UpdateTotalsRepaid { now, caller, amount, fee }
            }
        }
    }

    /// Amounts repaid at the edges of the schedule, and such that the quotient passes 32 bits.
    fn repaid(&mut self, offer: Option<&Offer>) -> i64 {
        let schedule = offer.and_then(|offer| offer.schedule);
        let installment = schedule.map_or(1, |schedule| schedule.installment) as u64;
        let count = schedule.map_or(1, |schedule| schedule.count);
        let whole = installment * self.chance.within(0, count + 1);
        let amount = match self.chance.below(10) {
            0 => self.chance.below(MOST_HELD + 1),
            1 => MOST_HELD - self.chance.below(2),
            2 => installment.saturating_mul((1 << 32) + self.chance.below(3)),
            _ => self.beside(whole),
        };
        amount.min(MOST_HELD) as i64
    }

    /// An amount repaid about the sum up to an installment, the last one before others.
    fn about_sum(&mut self, offer: Option<&Offer>) -> i64 {
        let Some(row) = offer.and_then(|offer| offer.schedule) else { return self.repaid(offer) };
        let number = match self.chance.below(4) {
            0 => self.chance.within(1, row.count),
            1 => row.count.saturating_sub(1).max(1),
            _ => row.count,
        };
        self.beside(sums(&row)[number as usize - 1] as u64) as i64
    }

    /// A difference to a total, mostly up.
    fn signed(&mut self) -> i64 {
        let amount = self.amount();
        match self.chance.below(8) {
            0 => -amount,
            1 => 0,
            2 => self.chance.pick(&[MOST_HELD as i64, -(MOST_HELD as i64), i64::MAX, i64::MIN]),
            _ => amount,
        }
    }

    pub(super) fn admin(&mut self, tag: u8, book: &Book) -> Command {
        let (now, seats, id) = (self.time(None), self.seats(book), self.any_account(book));
        match tag {
            0x51 => Command::Pause { now, seats },
            0x52 => Command::Unpause { now, seats },
            0x53 => {
                let window = match self.chance.below(4) {
                    0 => self.chance.pick(&[3_600, 604_800, 2_592_000]),
                    _ => self.chance.within(3_600, 20_000),
                };
                Command::SetWindow { now, seats, window }
            }
            0x54 => Command::SetRepaymentAccount { now, id, seats },
            0x55 => {
                let listed = book.accounts.iter().find(|row| row.blacklisted == 1);
                let id = listed.filter(|_| self.chance.percent(80)).map_or(id, |row| row.id);
                let code = listed.is_none_or(|row| row.id != id).into();
                Command::SetBlacklisted { now, id, code, seats }
            }
            _ => {
                let few = 1 << self.chance.below(32) | 1 << self.chance.below(32);
                let any = self.chance.number() & 0xFFFF_FFFF | 1;
                let next = self.chance.pick(&[1, few, few, any, 0xFFFF_FFFF]);
                let most = u64::from(u64::count_ones(next));
                let threshold = self.chance.within(1, most) as u32;
                Command::SetSeats { now, seats, threshold, next }
            }
        }
    }
}
