//! The commands that only the port has: accounts, money in and out, invoices and the blacklist.
//! Each list of tests is document 01's.

use invofi_common::{Invoice, InvoiceStatus, Registry};
use journal::{answer, Command};
use original::FinancingContract as Contract;
use soroban_sdk::token::{purse, set_purse, Purse};
use soroban_sdk::{Address, Outcome};

use crate::calls::{seats, symbol, MOST_OFFERED};
use crate::{require, Original};

const MOST_ACCOUNTS: usize = 64;
const MOST_APPROVED: i64 = 4_000_000_000_000_000;

fn offer_amount(amount: i64) -> Outcome<i128> {
    require((1..=MOST_OFFERED).contains(&amount), answer::INVALID_INPUT)?;
    Ok(amount.into())
}

impl Original {
    pub(crate) fn port_command(&self, command: &Command) -> Outcome<()> {
        let paused = Contract::contract_is_paused(self.env.clone());
        require(!paused, answer::PAUSED)?;
        match *command {
            Command::OpenAccount { caller, .. } => self.open_account(caller),
            Command::Deposit { caller, amount, .. } => self.deposit(caller, amount),
            Command::Payout { caller, amount, .. } => self.payout(caller, amount),
            Command::Approve { caller, amount, .. } => self.approve(caller, amount),
            Command::RegisterInvoice { caller, id, amount, .. } => {
                self.register(caller, id, amount)
            }
            Command::CancelInvoice { caller, id, .. } => self.cancel(caller, id),
            Command::SetBlacklisted { id, code, seats, .. } => self.blacklist(id, code, seats),
            _ => unreachable!("a command of the original's"),
        }
    }

    fn opened(&self, caller: u64) -> Outcome<Address> {
        require(self.is_open(caller), answer::NOT_FOUND)?;
        Ok(Address::account(caller))
    }

    fn held(&self, holder: &Address) -> Purse {
        purse(&self.env, holder).expect("an opened account has a purse")
    }

    fn open_account(&self, caller: u64) -> Outcome<()> {
        require(!self.is_open(caller), answer::ALREADY_EXISTS)?;
        require(self.accounts.len() < MOST_ACCOUNTS, answer::NO_ROOM)?;
        set_purse(&self.env, &Address::account(caller), &Purse::default());
        Ok(())
    }

    fn deposit(&self, caller: u64, amount: i64) -> Outcome<()> {
        let holder = self.opened(caller)?;
        let mut held = self.held(&holder);
        held.balance += offer_amount(amount)?;
        set_purse(&self.env, &holder, &held);
        Ok(())
    }

    fn payout(&self, caller: u64, amount: i64) -> Outcome<()> {
        let holder = self.opened(caller)?;
        let mut held = self.held(&holder);
        held.balance -= offer_amount(amount)?;
        require(held.balance >= 0, answer::BALANCE_SHORT)?;
        set_purse(&self.env, &holder, &held);
        Ok(())
    }

    fn approve(&self, caller: u64, amount: i64) -> Outcome<()> {
        let holder = self.opened(caller)?;
        require((0..=MOST_APPROVED).contains(&amount), answer::INVALID_INPUT)?;
        let allowance = amount.into();
        set_purse(&self.env, &holder, &Purse { allowance, ..self.held(&holder) });
        Ok(())
    }

    fn register(&self, caller: u64, id: u64, amount: i64) -> Outcome<()> {
        let originator = self.opened(caller)?;
        let (id, amount, status) = (symbol(id), offer_amount(amount)?, InvoiceStatus::Pending);
        let registry = Registry(&self.env);
        require(!registry.invoices().contains_key(id), answer::ALREADY_EXISTS)?;
        registry.put_invoice(Invoice { id, originator, amount, status });
        Ok(())
    }

    fn cancel(&self, caller: u64, id: u64) -> Outcome<()> {
        let party = self.opened(caller)?;
        let registry = Registry(&self.env);
        let Some(mut invoice) = registry.invoices().get(symbol(id)) else {
            return require(false, answer::NOT_FOUND);
        };
        require(invoice.originator == party, answer::UNAUTHORIZED)?;
        require(invoice.status == InvoiceStatus::Pending, answer::INVALID_TRANSITION)?;
        invoice.status = InvoiceStatus::Cancelled;
        registry.put_invoice(invoice);
        Ok(())
    }

    fn blacklist(&self, id: u64, code: u32, bits: u64) -> Outcome<()> {
        let config = invofi_common::load_admin_config(&self.env);
        invofi_common::assert_threshold(&self.env, &config, &seats(&self.env, bits));
        require(code <= 1, answer::INVALID_INPUT)?;
        Registry(&self.env).set_blacklisted(&self.opened(id)?, code == 1);
        Ok(())
    }
}
