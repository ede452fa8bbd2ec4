//! The original's queries, as numbers in a lent buffer.

use invofi_common::{FinancingOffer, OfferStatus};
use journal::answer;
use original::FinancingContract as Contract;
use side::{Query, Reply};
use soroban_sdk::{Address, Env, Vec as Rows};

use crate::calls::symbol;
use crate::state::{round_numbers, schedule_numbers, seat_bits, ten, totals_numbers, ONLY_KIND};
use crate::{refused, Original, Verdict};

type Answer = soroban_sdk::Outcome<Vec<u64>>;

impl Original {
    pub(crate) fn answer(&self, query: Query, out: &mut [u64]) -> Reply {
        if let Query::Status(_, now) | Query::Due(_, now) = query {
            self.env.set_time(now);
        }
        match self.env.transaction(None, || numbers(self.env.clone(), query)) {
            Ok(numbers) => Reply::write(&numbers, out),
            Err(stop) => Reply::refused(Verdict::of(Err(stop)).number),
        }
    }
}

fn numbers(env: Env, query: Query) -> Answer {
    Ok(match query {
        Query::ByInvoice(invoice) => list(Contract::get_offers_by_invoice(env, symbol(invoice))),
        Query::ByLender(id) => list(Contract::get_offers_by_lender(env, Address::account(id))),
        Query::ByStatus(code) => return by_status(env, code),
        Query::PendingByInvoice(invoice) => {
            list(Contract::get_pending_offers_by_invoice(env, symbol(invoice)))
        }
        Query::All => list(Contract::get_all_offers(env)),
        Query::Page(offset, limit) => {
            list(Contract::get_offers_paginated(env, narrowed(offset), narrowed(limit)))
        }
        Query::Offer(id) => ten(&Contract::get_offer(env, symbol(id))).into(),
        Query::Schedule(id) => {
            let schedule = Contract::get_schedule(env, symbol(id));
            let kinded = |numbers: [u64; 4]| [numbers.as_slice(), &[ONLY_KIND]].concat();
            schedule.map_or(Vec::new(), |schedule| kinded(schedule_numbers(&schedule)))
        }
        Query::Negotiation(id) => negotiation(env, id),
        Query::Status(id, _) => vec![Contract::get_negotiation_status(env, symbol(id)) as u64],
        Query::Due(id, _) => due(env, id),
        Query::Lender(id) => lender(env, id),
        Query::ActiveTotal(id) => {
            vec![Contract::get_lender_active_total(env, Address::account(id)) as u64]
        }
        Query::Count => vec![Contract::get_offers_count(env).into()],
        Query::Totals => totals_numbers(&Contract::get_stats(env)).into(),
        Query::Window => vec![Contract::get_negotiation_window(env)],
        Query::Seats => {
            let signers = Contract::get_signers(env.clone());
            vec![seat_bits(&signers), Contract::get_threshold(env).into()]
        }
        Query::Paused => vec![Contract::contract_is_paused(env).into()],
    })
}

fn list(offers: Rows<FinancingOffer>) -> Vec<u64> {
    offers.iter().flat_map(|offer| ten(&offer)).collect()
}

fn by_status(env: Env, code: u64) -> Answer {
    match OfferStatus::of_code(code) {
        Some(status) => Ok(list(Contract::get_offers_by_status(env, status))),
        None => refused(answer::INVALID_INPUT),
    }
}

/// The original counts offers in 32 bits; a book has 64 at most, so the greatest stands for more.
fn narrowed(number: u64) -> u32 {
    number.try_into().unwrap_or(u32::MAX)
}

fn negotiation(env: Env, id: u64) -> Vec<u64> {
    let mut numbers = vec![Contract::get_negotiation_deadline(env.clone(), symbol(id))];
    let rounds = Contract::get_negotiation(env, symbol(id));
    rounds.iter().for_each(|round| numbers.extend(round_numbers(&round)));
    numbers
}

/// The original says the number alone. What is owed on it is so many installments less the amount
/// repaid, in two's complement.
fn due(env: Env, id: u64) -> Vec<u64> {
    let number = Contract::get_installment_due(env.clone(), symbol(id));
    let schedule = Contract::get_schedule(env.clone(), symbol(id)).filter(|_| number != 0);
    let Some(schedule) = schedule else { return vec![0; 2] };
    let repaid = Contract::get_offer(env, symbol(id)).amount_repaid;
    let owed = i128::from(number) * schedule.installment_amount - repaid;
    vec![number.into(), owed as u64]
}

fn lender(env: Env, id: u64) -> Vec<u64> {
    let figures = Contract::get_lender_stats(env, Address::account(id));
    let (offered, accepted) = (figures.total_offered as u64, figures.total_accepted as u64);
    vec![offered, accepted, figures.offers_pending.into(), figures.offers_repaid.into()]
}
