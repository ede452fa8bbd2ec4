//! Module 5: repayment's four updates.

use crate::money::{grown, moved, HELD};
use crate::{test, Desk, Test};

impl Desk {
    fn repayment(&self, caller: u64) -> Test {
        self.party(caller)?;
        test(self.book.repayment == Some(caller), 6)
    }

    pub fn set_status(&mut self, caller: u64, id: u64, code: u32) -> Test {
        self.repayment(caller)?;
        test(code <= 5, 3)?;
        let offer = self.offer(id)?;
        self.book.offers[offer].status = code.into();
        Ok(())
    }

    pub fn set_repaid(&mut self, caller: u64, id: u64, amount: i64) -> Test {
        self.repayment(caller)?;
        let offer = self.offer(id)?;
        test(HELD.contains(&amount), 11)?;
        self.book.offers[offer].repaid = amount;
        Ok(())
    }

    pub fn lender_repaid(&mut self, caller: u64, id: u64, flag: u32) -> Test {
        self.repayment(caller)?;
        test(flag <= 1, 3)?;
        let account = self.account(id)?;
        let row = &mut self.book.accounts[account];
        row.repaid = grown(row.repaid, flag.into())?;
        Ok(())
    }

    pub fn totals_repaid(&mut self, caller: u64, amount: i64, fee: i64) -> Test {
        self.repayment(caller)?;
        let totals = &mut self.book.totals;
        totals.repaid = moved(totals.repaid, amount.into())?;
        totals.fees = moved(totals.fees, fee.into())?;
        Ok(())
    }
}
