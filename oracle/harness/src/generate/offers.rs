//! Commands on offers: creating, negotiating, settling, scheduling.

use journal::Command;
use plain::edition::{has_kinds, holds_amount};
use plain::schedule::{FALLING, FLAT};
use side::{Book, Offer};

use super::{Generator, DAY, TRILLION, UNKNOWN_KINDS, YEAR};

/// Amount, rate and duration.
type Terms = (i64, u32, u64);

impl Generator {
    pub(super) fn create(&mut self, book: &Book) -> Command {
        let now = self.time(None);
        let pending: Vec<_> = book.invoices.iter().filter(|row| row.status == 0).collect();
        let mut caller = self.any_account(book);
        let (mut invoice, mut most) = (self.new_id(), self.plan.amounts);
        if !pending.is_empty() {
            let chosen = pending[self.chance.below(pending.len() as u64) as usize];
            (invoice, most) = (chosen.id, chosen.amount as u64);
            if caller == chosen.originator {
                caller = self.any_account(book);
            }
        }
        let (id, rate, duration) = (self.new_id(), self.rate(), self.duration());
        let amount = match self.chance.below(6) {
            0 => most as i64,
            _ => self.chance.within(1, most) as i64,
        };
        let expires = match self.chance.below(10) {
            0..5 => 0,
            5..8 => now.saturating_add(self.chance.below(40 * self.plan.tick)),
            8 => self.beside(now),
            _ => u64::MAX,
        };
        Command::CreateOffer { now, caller, id, invoice, amount, rate, duration, expires }
    }

    pub(super) fn on_offer(&mut self, tag: u8, book: &Book, offer: &Offer) -> Command {
        let (now, id) = (self.time(Some(offer)), offer.id);
        let originator = self.originator(book, offer);
        let party = self.chance.pick(&[offer.lender, originator]);
        let round = offer.rounds.len() as u32;
        match tag {
            0x32 => Command::WithdrawOffer { now, caller: offer.lender, id },
            0x33 => Command::AcceptOffer { now, caller: originator, id },
            0x34 => Command::RejectOffer { now, caller: originator, id },
            0x35 => {
                let terms = self.amended(offer);
                let (amount, rate, duration) = self.at_invoiced(book, offer, terms);
                Command::AmendOffer { now, caller: offer.lender, id, amount, rate, duration, round }
            }
            0x36 => {
                let terms = self.countered(offer);
                let (amount, rate, duration) = self.at_invoiced(book, offer, terms);
                Command::CounterOffer { now, caller: originator, id, amount, rate, duration, round }
            }
            0x37 => Command::CloseNegotiation { now, caller: party, id },
            _ => {
                let (code, count) = (self.chance.within(1, 3) as u32, self.count(offer));
                let first = match self.chance.below(4) {
                    0 => now.saturating_add(1),
                    _ => now.saturating_add(self.chance.within(1, 1_000_000)),
                };
                let kind = self.kind(book);
                Command::ScheduleRepayment { now, caller: party, id, count, code, first, kind }
            }
        }
    }

    /// A schedule's kind, where the edition has kinds; now and then one that there is not.
    fn kind(&mut self, book: &Book) -> u64 {
        if !has_kinds(book.edition) {
            return FLAT;
        }
        match self.chance.below(16) {
            0 => self.chance.pick(&UNKNOWN_KINDS),
            1..7 => FLAT,
            _ => FALLING,
        }
    }

    /// A count at which the installment may be 0.
    fn count(&mut self, offer: &Offer) -> u32 {
        let amount = offer.amount as u64;
        let count = match self.chance.below(6) {
            0 => self.beside(amount),
            1 => self.chance.pick(&[1, 1_200]),
            _ => self.chance.within(1, 12),
        };
        count.clamp(1, 1_200) as u32
    }

    /// Where the amount is held to the invoice's, it is now and then that one or a neighbour of it.
    fn at_invoiced(&mut self, book: &Book, offer: &Offer, terms: Terms) -> Terms {
        let invoice = book.invoices.iter().find(|row| row.id == offer.invoice);
        match invoice {
            Some(row) if holds_amount(book.edition) && self.chance.percent(15) => {
                let beside = self.beside(row.amount as u64).clamp(1, TRILLION);
                (beside as i64, terms.1, terms.2)
            }
            _ => terms,
        }
    }

    /// How many rounds in a hundred aim at agreement: many of those past the thirteenth.
    fn agreeing(&self, offer: &Offer) -> u64 {
        if offer.rounds.len() > 12 {
            50
        } else {
            self.plan.agreeing
        }
    }

    fn amended(&mut self, offer: &Offer) -> Terms {
        let counters: Vec<_> = offer.rounds.iter().filter(|round| round.party == 1).collect();
        let terms = counters.iter().map(|round| (round.amount, round.rate as u32, round.duration));
        let terms: Vec<_> = terms.collect();
        let Some(latest) = terms.last() else { return self.near(present(offer)) };
        if self.chance.percent(self.agreeing(offer)) {
            return *latest;
        }
        match self.chance.below(10) {
            0..3 => self.chance.pick(&terms),
            3 => self.near(*latest),
            4 => present(offer),
            _ => self.near(present(offer)),
        }
    }

    fn countered(&mut self, offer: &Offer) -> Terms {
        if self.chance.percent(self.agreeing(offer) / 2) {
            return present(offer);
        }
        let rounds = offer.rounds.iter().map(|row| (row.amount, row.rate as u32, row.duration));
        let rounds: Vec<_> = rounds.collect();
        match self.chance.below(10) {
            0..3 if !rounds.is_empty() => self.chance.pick(&rounds),
            3 => present(offer),
            _ => self.near(present(offer)),
        }
    }

    /// Terms that differ from these in one figure or in all.
    fn near(&mut self, terms: Terms) -> Terms {
        let (amount, rate, duration) = terms;
        match self.chance.below(5) {
            0 => (amount % TRILLION as i64 + 1, rate, duration),
            1 => (amount, rate % 10_000 + 1, duration),
            2 => (amount, rate, DAY + (duration + 1 - DAY) % (YEAR - DAY)),
            3 => (self.amount(), rate, duration),
            _ => (self.amount(), self.rate(), self.duration()),
        }
    }
}

fn present(offer: &Offer) -> Terms {
    (offer.amount, offer.rate as u32, offer.duration)
}
