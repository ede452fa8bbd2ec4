//! The whole state out of the original's storage and into it.
//!
//! Most of it is read through the original's own queries. Three things have none: a stored
//! outcome, the repayment account and the registry's and token's rows; their keys are read.

use invofi_common::{
    AdminConfig, FinancingOffer, Invoice, InvoiceStatus, LenderStats, NegotiationParty,
    NegotiationRecord, NegotiationStatus, OfferStatus, ProtocolStats, Registry, RepaymentSchedule,
    ScheduleFrequency,
};
use original::FinancingContract as Contract;
use side::{Account, Book, Offer, Round, Schedule};
use soroban_sdk::token::{purse, set_purse, Purse};
use soroban_sdk::{symbol_short, Address, Map, Symbol, Vec as Rows};

use crate::calls::{seats, symbol, CURRENCY};
use crate::{Original, EDITION};

fn repayment_key() -> Symbol {
    symbol_short!("repayment")
}

fn outcome_key(offer: Symbol) -> (Symbol, Symbol) {
    (symbol_short!("negend"), offer)
}

pub(crate) fn ten(offer: &FinancingOffer) -> [u64; 10] {
    [
        offer.id.number(),
        offer.invoice_id.number(),
        offer.lender.number(),
        offer.amount as u64,
        offer.interest_rate.into(),
        offer.duration,
        offer.expires_at,
        offer.status as u64,
        offer.funded_at,
        offer.amount_repaid as u64,
    ]
}

pub(crate) fn schedule_numbers(schedule: &RepaymentSchedule) -> [u64; 4] {
    let installment = schedule.installment_amount as u64;
    [schedule.count.into(), schedule.frequency as u64, installment, schedule.first_due]
}

/// The original's schedules keep no terms and have one kind.
const NO_TERMS: [u64; 2] = [0; 2];
pub(crate) const ONLY_KIND: u64 = 0;

pub(crate) fn round_numbers(round: &NegotiationRecord) -> [u64; 5] {
    let (party, amount) = (round.party as u64, round.amount as u64);
    [party, amount, round.interest_rate.into(), round.duration, round.timestamp]
}

pub(crate) fn totals_numbers(stats: &ProtocolStats) -> [u64; 4] {
    let money = [stats.total_financed, stats.total_repaid, stats.total_fee_revenue];
    let [financed, repaid, fees] = money.map(|total| total as u64);
    [stats.total_offers.into(), financed, repaid, fees]
}

/// The bits of seats among the configured signers.
pub(crate) fn seat_bits(signers: &Rows<Address>) -> u64 {
    signers.iter().fold(0, |bits, seat| bits | 1 << seat.number())
}

impl Original {
    /// The flat form that `side` documents.
    pub(crate) fn show_rows(&self, out: &mut Vec<u64>) {
        out.clear();
        self.show_settings(out);
        out.push(self.accounts.len() as u64);
        self.accounts.iter().for_each(|id| out.extend(self.account_numbers(*id)));
        let invoices = Registry(&self.env).invoices();
        out.push(invoices.len().into());
        for (id, row) in invoices.iter() {
            let (amount, status) = (row.amount as u64, row.status as u64);
            out.extend([id.number(), row.originator.number(), amount, status]);
        }
        let offers = Contract::get_all_offers(self.env.clone());
        out.push(offers.len().into());
        offers.iter().for_each(|offer| self.show_offer(&offer, out));
    }

    fn show_settings(&self, out: &mut Vec<u64>) {
        let env = || self.env.clone();
        let repayment: Option<Address> = self.env.storage().instance().get(&repayment_key());
        out.push(EDITION);
        out.push(Contract::contract_is_paused(env()).into());
        out.push(Contract::get_negotiation_window(env()));
        out.push(seat_bits(&Contract::get_signers(env())));
        out.push(Contract::get_threshold(env()).into());
        out.extend([repayment.is_some().into(), repayment.map_or(0, Address::number)]);
        out.extend(totals_numbers(&Contract::get_stats(env())));
    }

    fn account_numbers(&self, id: u64) -> [u64; 8] {
        let holder = Address::account(id);
        let held = purse(&self.env, &holder).expect("an opened account has a purse");
        let figures = Contract::get_lender_stats(self.env.clone(), holder);
        let listed = Registry(&self.env).is_blacklisted(&holder);
        let money = [held.balance, held.allowance, figures.total_offered, figures.total_accepted];
        let [balance, allowance, offered, accepted] = money.map(|figure| figure as u64);
        let (pending, repaid) = (figures.offers_pending.into(), figures.offers_repaid.into());
        [id, balance, allowance, offered, accepted, pending, repaid, listed.into()]
    }

    fn show_offer(&self, offer: &FinancingOffer, out: &mut Vec<u64>) {
        let env = || self.env.clone();
        let outcome: Option<NegotiationStatus> =
            self.env.storage().persistent().get(&outcome_key(offer.id));
        let schedule = Contract::get_schedule(env(), offer.id);
        let rounds = Contract::get_negotiation(env(), offer.id);
        out.extend(ten(offer));
        out.push(outcome.map_or(0, |stored| stored as u64));
        out.push(Contract::get_negotiation_deadline(env(), offer.id));
        out.extend(schedule.map_or([0; 4], |schedule| schedule_numbers(&schedule)));
        out.extend(NO_TERMS);
        out.push(ONLY_KIND);
        out.push(rounds.len().into());
        rounds.iter().for_each(|round| out.extend(round_numbers(&round)));
    }

    /// Writes given rows into the storage of a fresh contract.
    pub(crate) fn take_rows(&mut self, book: &Book) {
        self.accounts = book.accounts.iter().map(|account| account.id).collect();
        let env = &self.env;
        let taken = env.transaction(None, || {
            self.take_settings(book);
            book.accounts.iter().for_each(|account| self.take_account(account));
            for row in &book.invoices {
                let (id, originator) = (symbol(row.id), Address::account(row.originator));
                let status = InvoiceStatus::of_code(row.status).expect("a listed code");
                let amount = row.amount.into();
                Registry(env).put_invoice(Invoice { id, originator, amount, status });
            }
            self.take_offers(&book.offers);
            Ok(())
        });
        taken.expect("given rows make a sound book");
    }

    fn take_settings(&self, book: &Book) {
        let shelf = self.env.storage().instance();
        shelf.set(&symbol_short!("paused"), &book.paused);
        shelf.set(&symbol_short!("negwin"), &book.window);
        if let Some(id) = book.repayment {
            shelf.set(&repayment_key(), &Address::account(id));
        }
        let (signers, threshold) = (seats(&self.env, book.seats), book.threshold as u32);
        invofi_common::save_admin_config(&self.env, &AdminConfig { signers, threshold });
        let totals = &book.totals;
        let stats = ProtocolStats {
            total_invoices: 0,
            total_offers: totals.offers as u32,
            total_financed: totals.financed.into(),
            total_repaid: totals.repaid.into(),
            total_fee_revenue: totals.fees.into(),
        };
        shelf.set(&symbol_short!("stats"), &stats);
    }

    fn take_account(&self, account: &Account) {
        let (holder, shelf) = (Address::account(account.id), self.env.storage().persistent());
        let (balance, allowance) = (account.balance.into(), account.allowance.into());
        set_purse(&self.env, &holder, &Purse { balance, allowance });
        let figures = LenderStats {
            total_offered: account.offered.into(),
            total_accepted: account.accepted.into(),
            offers_pending: account.pending as u32,
            offers_repaid: account.repaid as u32,
        };
        shelf.set(&(symbol_short!("lstats"), holder), &figures);
        Registry(&self.env).set_blacklisted(&holder, account.blacklisted == 1);
    }

    fn take_offers(&self, rows: &[Offer]) {
        let (mut offers, mut schedules) = (Map::new(&self.env), Map::new(&self.env));
        for row in rows {
            let id = symbol(row.id);
            offers.set(id, offer_of(row));
            if let Some(schedule) = row.schedule {
                schedules.set(id, schedule_of(id, &schedule));
            }
            self.take_negotiation(row);
        }
        let shelf = self.env.storage().persistent();
        shelf.set(&symbol_short!("offers"), &offers);
        shelf.set(&symbol_short!("scheds"), &schedules);
    }

    fn take_negotiation(&self, row: &Offer) {
        let (id, shelf) = (symbol(row.id), self.env.storage().persistent());
        let rounds = Rows::from_rows(row.rounds.iter().map(record_of).collect());
        shelf.set(&(symbol_short!("negot"), id), &rounds);
        shelf.set(&(symbol_short!("negdl"), id), &row.deadline);
        if let Some(outcome) = NegotiationStatus::of_outcome(row.outcome) {
            shelf.set(&outcome_key(id), &outcome);
        }
    }
}

fn offer_of(row: &Offer) -> FinancingOffer {
    FinancingOffer {
        id: symbol(row.id),
        invoice_id: symbol(row.invoice),
        lender: Address::account(row.lender),
        amount: row.amount.into(),
        currency: CURRENCY,
        interest_rate: row.rate as u32,
        duration: row.duration,
        expires_at: row.expires,
        status: OfferStatus::of_code(row.status).expect("a listed code"),
        funded_at: row.funded,
        amount_repaid: row.repaid.into(),
    }
}

fn schedule_of(offer_id: Symbol, schedule: &Schedule) -> RepaymentSchedule {
    RepaymentSchedule {
        offer_id,
        count: schedule.count as u32,
        frequency: ScheduleFrequency::of_code(schedule.code).expect("a listed code"),
        installment_amount: schedule.installment.into(),
        first_due: schedule.first,
    }
}

fn record_of(round: &Round) -> NegotiationRecord {
    let lender = round.party == 0;
    NegotiationRecord {
        party: if lender { NegotiationParty::Lender } else { NegotiationParty::Originator },
        amount: round.amount.into(),
        interest_rate: round.rate as u32,
        duration: round.duration,
        timestamp: round.time,
    }
}
