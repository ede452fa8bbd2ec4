//! Module 4: settlement, and the agreement that leads to it.

use crate::money::moved;
use crate::negotiation::ACCEPTED as OUTCOME_ACCEPTED;
use crate::{test, Desk, Test};

pub const ACCEPTED: u64 = 1;
pub const FINANCED: u64 = 1;
pub const INVOICE_PENDING: u64 = 0;

impl Desk {
    pub fn not_expired(&self, offer: usize, now: u64) -> Test {
        let expires = self.book.offers[offer].expires;
        test(!(expires != 0 && now >= expires), 8)
    }

    pub fn not_blacklisted(&self, id: u64) -> Test {
        let account = self.account(id)?;
        test(self.book.accounts[account].blacklisted == 0, 2)
    }

    /// Invoice not Pending 7; expiry 8; lender blacklisted 2; originator blacklisted 2; settle.
    pub fn agree(&mut self, offer: usize, now: u64) -> Test {
        let invoice = self.invoice(self.book.offers[offer].invoice)?;
        test(self.book.invoices[invoice].status == INVOICE_PENDING, 7)?;
        self.not_expired(offer, now)?;
        self.not_blacklisted(self.book.offers[offer].lender)?;
        self.not_blacklisted(self.book.invoices[invoice].originator)?;
        self.settle(offer, invoice, now)
    }

    pub fn settle(&mut self, offer: usize, invoice: usize, now: u64) -> Test {
        let originator = self.book.invoices[invoice].originator;
        let row = &mut self.book.offers[offer];
        if !row.rounds.is_empty() && row.outcome == 0 {
            row.outcome = OUTCOME_ACCEPTED;
        }
        row.status = ACCEPTED;
        row.funded = now;
        let (lender, amount) = (row.lender, row.amount);
        self.transfer(lender, originator, amount)?;
        self.book.invoices[invoice].status = FINANCED;
        self.book.totals.financed = moved(self.book.totals.financed, amount.into())?;
        let lender = self.account(lender)?;
        let account = &mut self.book.accounts[lender];
        account.accepted = moved(account.accepted, amount.into())?;
        Ok(())
    }

    /// Allowance 9, lender balance 10, receiver 11; the debit before the credit.
    fn transfer(&mut self, from: u64, to: u64, amount: i64) -> Test {
        let payer = self.account(from)?;
        let account = &mut self.book.accounts[payer];
        test(account.allowance >= amount, 9)?;
        test(account.balance >= amount, 10)?;
        account.allowance -= amount;
        account.balance -= amount;
        let payee = self.account(to)?;
        let account = &mut self.book.accounts[payee];
        account.balance = moved(account.balance, amount.into())?;
        Ok(())
    }
}
