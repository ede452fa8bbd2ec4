//! The commands that are the original's, each handed to it.

use invofi_common::{OfferStatus, ScheduleFrequency};
use journal::{answer, Command};
use original::FinancingContract as Contract;
use soroban_sdk::{symbol_short, Address, Env, Outcome, Symbol, Vec};

use crate::{refused, Original};

/// The greatest amount of an offer or an invoice.
pub(crate) const MOST_OFFERED: i64 = 1_000_000_000_000;
/// The greatest amount repaid.
const MOST_REPAID: i64 = 4_000_000_000_000_000;

/// Currencies are left behind: every offer has this one.
pub(crate) const CURRENCY: Symbol = symbol_short!("CASH");

pub(crate) fn symbol(id: u64) -> Symbol {
    Symbol::of_number(id)
}

/// One address for each presented seat. No seat past 32 is ever configured.
pub(crate) fn seats(env: &Env, bits: u64) -> Vec<Address> {
    let mut seats = Vec::new(env);
    for seat in (0..64).filter(|seat| bits >> seat & 1 == 1) {
        seats.push_back(Address::seat(seat));
    }
    seats
}

impl Original {
    pub(crate) fn construct(&self) {
        let (admin, env) = (Address::seat(0), self.env.clone());
        let started = self.env.transaction(None, || {
            Contract::__constructor(env, admin, Address::REGISTRY, Address::TOKEN);
            Ok(())
        });
        started.expect("a fresh contract starts");
    }

    /// The caller's address; without an account 4, or 1 if the book is paused.
    fn party(&self, caller: u64) -> Outcome<Address> {
        if self.is_open(caller) || !self.rules {
            Ok(Address::account(caller))
        } else if Contract::contract_is_paused(self.env.clone()) {
            refused(answer::PAUSED)
        } else {
            refused(answer::NOT_FOUND)
        }
    }

    /// The amount as the original is handed it: 0 in place of one past the port's range.
    fn offered(&self, amount: i64) -> i128 {
        if self.rules && amount > MOST_OFFERED {
            0
        } else {
            amount.into()
        }
    }

    pub(crate) fn command(&self, command: &Command) -> Outcome<()> {
        let env = self.env.clone();
        match *command {
            Command::CreateOffer {
                caller, id, invoice, amount, rate, duration, expires, ..
            } => {
                let (lender, amount) = (self.party(caller)?, self.offered(amount));
                let (id, invoice, money) = (symbol(id), symbol(invoice), CURRENCY);
                Contract::create_offer(
                    env, id, invoice, lender, amount, money, rate, duration, expires,
                );
            }
            Command::WithdrawOffer { caller, id, .. } => {
                Contract::withdraw_offer(env, symbol(id), self.party(caller)?);
            }
            Command::AcceptOffer { caller, id, .. } => {
                Contract::accept_offer(env, symbol(id), self.party(caller)?);
            }
            Command::RejectOffer { caller, id, .. } => {
                Contract::reject_offer(env, symbol(id), self.party(caller)?);
            }
            Command::AmendOffer { caller, id, amount, rate, duration, round, .. } => {
                let (lender, amount) = (self.party(caller)?, self.offered(amount));
                Contract::amend_offer(env, symbol(id), lender, round, amount, rate, duration);
            }
            Command::CounterOffer { caller, id, amount, rate, duration, round, .. } => {
                let (originator, amount) = (self.party(caller)?, self.offered(amount));
                Contract::counter_offer(env, symbol(id), originator, round, amount, rate, duration);
            }
            Command::CloseNegotiation { caller, id, .. } => {
                Contract::close_negotiation(env, symbol(id), self.party(caller)?);
            }
            Command::ScheduleRepayment { caller, id, count, code, first, .. } => {
                let party = self.party(caller)?;
                let (code, count) = match ScheduleFrequency::of_code(code.into()) {
                    Some(listed) => (listed, count),
                    None => (ScheduleFrequency::Weekly, 0),
                };
                Contract::schedule_repayment(env, symbol(id), party, code, count, first);
            }
            Command::UpdateStatus { caller, id, code, .. } => {
                self.party(caller)?;
                return self.update_status(id, code.into());
            }
            Command::UpdateRepaid { caller, id, amount, .. } => {
                self.party(caller)?;
                Contract::update_offer_amount_repaid(env, symbol(id), amount.into());
                return self.rule((0..=MOST_REPAID).contains(&amount), answer::OUT_OF_RANGE);
            }
            Command::UpdateLenderRepaid { caller, id, code, .. } => {
                self.party(caller)?;
                Contract::update_lender_stats_repaid(env, Address::account(id), code == 1);
                self.rule(code <= 1, answer::INVALID_INPUT)?;
                return self.rule(self.is_open(id), answer::NOT_FOUND);
            }
            Command::UpdateTotalsRepaid { caller, amount, fee, .. } => {
                self.party(caller)?;
                Contract::update_stats_repaid(env, amount.into(), fee.into());
            }
            Command::Pause { seats: bits, .. } => Contract::pause(env, seats(&self.env, bits)),
            Command::Unpause { seats: bits, .. } => Contract::unpause(env, seats(&self.env, bits)),
            Command::SetWindow { seats: bits, window, .. } => {
                Contract::set_negotiation_window(env, seats(&self.env, bits), window);
            }
            Command::SetRepaymentAccount { id, seats: bits, .. } => {
                let signers = seats(&self.env, bits);
                Contract::set_repayment_contract(env, signers, Address::account(id));
                return self.rule(self.is_open(id), answer::NOT_FOUND);
            }
            Command::SetSeats { seats: bits, threshold, next, .. } => {
                let (signers, next) = (seats(&self.env, bits), seats(&self.env, next));
                Contract::set_signers(env, signers, next, threshold);
            }
            _ => return self.port_command(command),
        }
        Ok(())
    }

    /// An unlisted code is refused between the caller's test and the row's. Adding nothing to the
    /// totals takes the same two tests as this command, of pause and caller, and no more.
    fn update_status(&self, id: u64, code: u64) -> Outcome<()> {
        let env = self.env.clone();
        match OfferStatus::of_code(code) {
            Some(status) => {
                Contract::update_offer_status(env, symbol(id), status);
                Ok(())
            }
            None => {
                Contract::update_stats_repaid(env, 0, 0);
                refused(answer::INVALID_INPUT)
            }
        }
    }
}
