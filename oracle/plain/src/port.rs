//! Module 5: the port's own commands, on accounts and invoices.

use side::{Account, Invoice};

use crate::money::{moved, HELD, MOST_ROWS, OFFERED};
use crate::settlement::INVOICE_PENDING;
use crate::{test, Desk, Test};

const CANCELLED: u64 = 2;

impl Desk {
    pub fn open(&mut self, id: u64) -> Test {
        self.not_paused()?;
        test(self.account(id).is_err(), 5)?;
        test(self.book.accounts.len() < MOST_ROWS, 12)?;
        let place = self.book.accounts.partition_point(|row| row.id < id);
        self.book.accounts.insert(place, Account { id, ..Account::default() });
        Ok(())
    }

    pub fn deposit(&mut self, caller: u64, amount: i64) -> Test {
        self.party(caller)?;
        test(OFFERED.contains(&amount), 3)?;
        let account = self.account(caller)?;
        let row = &mut self.book.accounts[account];
        row.balance = moved(row.balance, amount.into())?;
        Ok(())
    }

    pub fn payout(&mut self, caller: u64, amount: i64) -> Test {
        self.party(caller)?;
        test(OFFERED.contains(&amount), 3)?;
        let account = self.account(caller)?;
        let row = &mut self.book.accounts[account];
        test(row.balance >= amount, 10)?;
        row.balance -= amount;
        Ok(())
    }

    pub fn approve(&mut self, caller: u64, amount: i64) -> Test {
        self.party(caller)?;
        test(HELD.contains(&amount), 3)?;
        let account = self.account(caller)?;
        self.book.accounts[account].allowance = amount;
        Ok(())
    }

    pub fn register(&mut self, caller: u64, id: u64, amount: i64) -> Test {
        self.party(caller)?;
        test(OFFERED.contains(&amount), 3)?;
        test(self.invoice(id).is_err(), 5)?;
        test(self.book.invoices.len() < MOST_ROWS, 12)?;
        let place = self.book.invoices.partition_point(|row| row.id < id);
        let status = INVOICE_PENDING;
        self.book.invoices.insert(place, Invoice { id, originator: caller, amount, status });
        Ok(())
    }

    pub fn cancel(&mut self, caller: u64, id: u64) -> Test {
        self.party(caller)?;
        let invoice = self.invoice(id)?;
        let row = &mut self.book.invoices[invoice];
        test(row.originator == caller, 6)?;
        test(row.status == INVOICE_PENDING, 7)?;
        row.status = CANCELLED;
        Ok(())
    }
}
