//! Module 5: the commands on offers, their tests in document 01's order.

use journal::Command;
use side::{Offer, Schedule};

use crate::edition::{holds_amount, keeps_terms, most_rounds};
use crate::money::{grown, moved, MOST_ROWS};
use crate::negotiation::{
    add_round, countered, negotiable, offer_terms, status, CLOSED, EXPIRED, LENDER, NONE,
    ORIGINATOR, PENDING,
};
use crate::schedule::{first_installment, is_kind, period, principal, FALLING};
use crate::settlement::INVOICE_PENDING;
use crate::terms::{terms_valid, within_invoice, Terms};
use crate::{test, Desk, Slip, Test};

const REJECTED: u64 = 2;
const REPAID: u64 = 4;
const DEFAULTED: u64 = 5;

impl Desk {
    pub fn offer_command(&mut self, command: &Command) -> Test {
        match *command {
            Command::CreateOffer {
                caller, id, invoice, amount, rate, duration, expires, ..
            } => {
                let (rate, lender) = (rate.into(), caller);
                let fresh = Offer {
                    id,
                    invoice,
                    lender,
                    amount,
                    rate,
                    duration,
                    expires,
                    ..Offer::default()
                };
                self.create(fresh)
            }
            Command::WithdrawOffer { caller, id, .. } => self.withdraw(caller, id),
            Command::AcceptOffer { now, caller, id } => self.accept(now, caller, id),
            Command::RejectOffer { caller, id, .. } => self.reject(caller, id),
            Command::AmendOffer { now, caller, id, amount, rate, duration, round } => {
                let terms = Terms { amount, rate: rate.into(), duration };
                self.amend(now, caller, id, terms, round)
            }
            Command::CounterOffer { now, caller, id, amount, rate, duration, round } => {
                let terms = Terms { amount, rate: rate.into(), duration };
                self.counter(now, caller, id, terms, round)
            }
            Command::CloseNegotiation { now, caller, id } => self.close(now, caller, id),
            Command::ScheduleRepayment { now, caller, id, count, code, first, kind } => {
                let (count, code, kind) = (count.into(), code.into(), self.kind_of(kind));
                let asked = Schedule { count, code, first, kind, ..Schedule::default() };
                self.schedule(now, caller, id, asked)
            }
            _ => unreachable!("a command on offers"),
        }
    }

    fn create(&mut self, offer: Offer) -> Test {
        self.party(offer.lender)?;
        self.not_blacklisted(offer.lender)?;
        terms_valid(&offer_terms(&offer))?;
        let invoice = &self.book.invoices[self.invoice(offer.invoice)?];
        test(invoice.status == INVOICE_PENDING, 7)?;
        test(invoice.originator != offer.lender, 3)?;
        within_invoice(&offer_terms(&offer), invoice.amount)?;
        test(self.offer(offer.id).is_err(), 5)?;
        test(self.book.offers.len() < MOST_ROWS, 12)?;
        let lender = self.account(offer.lender)?;
        let account = &mut self.book.accounts[lender];
        account.offered = moved(account.offered, offer.amount.into())?;
        account.pending = grown(account.pending, 1)?;
        self.book.totals.offers = grown(self.book.totals.offers, 1)?;
        let place = self.book.offers.partition_point(|row| row.id < offer.id);
        self.book.offers.insert(place, offer);
        Ok(())
    }

    fn withdraw(&mut self, caller: u64, id: u64) -> Test {
        self.party(caller)?;
        let offer = self.offer(id)?;
        test(self.book.offers[offer].lender == caller, 6)?;
        test(self.book.offers[offer].status == PENDING, 7)?;
        self.book.offers[offer].status = REJECTED;
        if self.slips(Slip::WithdrawLowers) {
            let amount = self.book.offers[offer].amount;
            let lender = self.account(caller)?;
            self.book.accounts[lender].offered -= amount;
        }
        Ok(())
    }

    fn reject(&mut self, caller: u64, id: u64) -> Test {
        self.party(caller)?;
        let offer = self.offer(id)?;
        test(self.book.offers[offer].status == PENDING, 7)?;
        let invoice = self.invoice(self.book.offers[offer].invoice)?;
        test(self.book.invoices[invoice].originator == caller, 6)?;
        self.book.offers[offer].status = REJECTED;
        Ok(())
    }

    fn accept(&mut self, now: u64, caller: u64, id: u64) -> Test {
        self.party(caller)?;
        let offer = self.offer(id)?;
        test(self.book.offers[offer].status == PENDING, 7)?;
        self.not_expired(offer, now)?;
        let invoice = self.invoice(self.book.offers[offer].invoice)?;
        test(self.book.invoices[invoice].originator == caller, 6)?;
        test(self.book.invoices[invoice].status == INVOICE_PENDING, 7)?;
        self.settle(offer, invoice, now)
    }

    fn amend(&mut self, now: u64, caller: u64, id: u64, terms: Terms, round: u32) -> Test {
        self.party(caller)?;
        self.not_blacklisted(caller)?;
        terms_valid(&terms)?;
        let index = self.offer(id)?;
        test(self.book.offers[index].lender == caller, 6)?;
        let held = self.held(index, &terms)?;
        test(held || self.slips(Slip::AmountLate), 3)?;
        self.negotiable(index, now, round)?;
        test(held, 3)?;
        let agreed = countered(&self.book.offers[index], &terms, self.slips(Slip::AnyCounter));
        let difference = i128::from(terms.amount) - i128::from(self.book.offers[index].amount);
        let lender = self.account(caller)?;
        let account = &mut self.book.accounts[lender];
        account.offered = moved(account.offered, difference)?;
        let offer = &mut self.book.offers[index];
        Terms { amount: offer.amount, rate: offer.rate, duration: offer.duration } = terms;
        self.put_round(index, LENDER, &terms, now);
        self.conclude(agreed, index, now)
    }

    fn counter(&mut self, now: u64, caller: u64, id: u64, terms: Terms, round: u32) -> Test {
        self.party(caller)?;
        self.not_blacklisted(caller)?;
        terms_valid(&terms)?;
        let index = self.offer(id)?;
        let invoice = self.invoice(self.book.offers[index].invoice)?;
        test(self.book.invoices[invoice].originator == caller, 6)?;
        test(self.held(index, &terms)?, 3)?;
        self.negotiable(index, now, round)?;
        let agreed = offer_terms(&self.book.offers[index]) == terms;
        self.put_round(index, ORIGINATOR, &terms, now);
        self.conclude(agreed, index, now)
    }

    /// Whether the terms keep to the invoice's amount, where the edition holds them to it: without the
    /// invoice 4.
    fn held(&self, index: usize, terms: &Terms) -> Test<bool> {
        if !holds_amount(self.book.edition) {
            return Ok(true);
        }
        let invoice = self.invoice(self.book.offers[index].invoice)?;
        let invoiced = self.book.invoices[invoice].amount;
        let slipped = self.slips(Slip::AmountReached) && terms.amount == invoiced;
        Ok(within_invoice(terms, invoiced).is_ok() && !slipped)
    }

    fn negotiable(&self, index: usize, now: u64, round: u32) -> Test {
        negotiable(&self.book.offers[index], now, round, self.most_rounds())
    }

    fn most_rounds(&self) -> usize {
        match self.slip {
            Some(Slip::TwelveRounds) => 12,
            Some(Slip::SixteenRounds) => 16,
            _ => most_rounds(self.book.edition),
        }
    }

    fn put_round(&mut self, index: usize, party: u64, terms: &Terms, now: u64) {
        let (window, moves) = (self.book.window, self.slips(Slip::DeadlineMoves));
        add_round(&mut self.book.offers[index], party, terms, now, window, moves);
    }

    fn conclude(&mut self, agreed: bool, offer: usize, now: u64) -> Test {
        if !agreed {
            return Ok(());
        }
        if self.slips(Slip::RoundStays) {
            self.kept = Some(self.book.clone());
        }
        self.agree(offer, now)
    }

    fn close(&mut self, now: u64, caller: u64, id: u64) -> Test {
        self.party(caller)?;
        let index = self.offer(id)?;
        let offer = &self.book.offers[index];
        test(offer.outcome == 0, 7)?;
        let outcome = match status(offer, now) {
            NONE => return Err(4),
            CLOSED => return Err(7),
            EXPIRED => EXPIRED,
            _ => {
                if caller != offer.lender {
                    let invoice = self.invoice(offer.invoice)?;
                    test(self.book.invoices[invoice].originator == caller, 6)?;
                }
                CLOSED
            }
        };
        self.book.offers[index].outcome = outcome;
        Ok(())
    }

    fn schedule(&mut self, now: u64, caller: u64, id: u64, asked: Schedule) -> Test {
        self.party(caller)?;
        test((1..=1200).contains(&asked.count), 3)?;
        test(is_kind(asked.kind) || self.slips(Slip::KindLate), 3)?;
        test(asked.first > now, 3)?;
        test(period(asked.code).is_some(), 3)?;
        let index = self.offer(id)?;
        let offer = &self.book.offers[index];
        test(![REJECTED, REPAID, DEFAULTED].contains(&offer.status), 7)?;
        let invoice = self.invoice(offer.invoice)?;
        let originator = self.book.invoices[invoice].originator;
        test(caller == offer.lender || caller == originator, 6)?;
        test(is_kind(asked.kind), 3)?;
        let Schedule { count, kind, .. } = asked;
        let installment = first_installment(kind, offer.amount, count, offer.rate);
        test(installment != 0, 3)?;
        test(kind != FALLING || principal(offer.amount, count) != 0, 3)?;
        let kept = keeps_terms(self.book.edition).then_some((offer.amount, offer.rate));
        let (amount, rate) = kept.unwrap_or_default();
        let schedule = Schedule { installment, amount, rate, ..asked };
        self.book.offers[index].schedule = Some(schedule);
        Ok(())
    }

    fn kind_of(&self, kind: u64) -> u64 {
        if self.slips(Slip::KindCut) {
            kind & 0xFFFF_FFFF
        } else {
            kind
        }
    }
}
