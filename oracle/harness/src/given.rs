//! Sound books that no journal makes: figures at the ends of their ranges, rows that do not fit
//! each other. Every account that they name is opened, as the comparison's domain asks.

use plain::edition::{has_kinds, keeps_terms, most_rounds};
use plain::schedule::{first_installment, sums, FALLING, FLAT};
use side::{Account, Book, Invoice, Offer, Round, Schedule, Totals};

use crate::chance::Chance;

const TRILLION: u64 = 1_000_000_000_000;
const MOST_HELD: u64 = 4_000_000_000_000_000;
const MOST_COUNTED: u64 = 1_000_000;

pub fn given(edition: u64, chance: &mut Chance) -> Book {
    let many = chance.percent(5);
    let rows = |chance: &mut Chance| chance.within(0, if many { 64 } else { 6 }) as usize;
    let accounts = ids(chance, if many { 64 } else { 4 });
    let (invoices, offers) = (rows(chance), rows(chance));
    let (invoices, offers) = (ids(chance, invoices), ids(chance, offers));
    let next = 1 << chance.below(32) | 1 << chance.below(32) | 1;
    let seats = u64::count_ones(next).into();
    Book {
        edition,
        paused: chance.percent(5),
        window: chance.pick(&[3_600, 259_200, 604_800, 2_592_000]),
        seats: next,
        threshold: chance.within(1, seats),
        repayment: chance.percent(80).then(|| chance.pick(&accounts)),
        idle: 0,
        totals: Totals {
            offers: count(chance),
            financed: held(chance),
            repaid: held(chance),
            fees: held(chance),
        },
        accounts: accounts.iter().map(|id| account(chance, *id)).collect(),
        invoices: invoices.iter().map(|id| invoice(chance, *id, &accounts)).collect(),
        offers: offers.iter().map(|id| offer(chance, *id, &accounts, &invoices, edition)).collect(),
    }
}

/// The same book; where it has no repayment account, an account's id stands idle in its place. The
/// original has no such book.
pub fn with_idle(mut book: Book) -> Book {
    if book.repayment.is_none() {
        book.idle = book.accounts[0].id;
    }
    book
}

/// So many ids, ascending.
fn ids(chance: &mut Chance, rows: usize) -> Vec<u64> {
    let mut ids = std::collections::BTreeSet::new();
    while ids.len() < rows {
        ids.insert(match chance.below(12) {
            0 => chance.pick(&[0, u64::MAX]),
            1 => chance.number(),
            _ => chance.within(1, 90),
        });
    }
    ids.into_iter().collect()
}

/// A figure from 0 to 4×10^15, mostly at an end.
fn held(chance: &mut Chance) -> i64 {
    let figure = match chance.below(8) {
        0..3 => chance.below(3),
        3..6 => MOST_HELD - chance.below(3),
        6 => MOST_HELD - chance.below(TRILLION),
        _ => chance.below(MOST_HELD + 1),
    };
    figure as i64
}

fn count(chance: &mut Chance) -> u64 {
    match chance.below(3) {
        0 => chance.below(3),
        1 => MOST_COUNTED - chance.below(3),
        _ => chance.below(MOST_COUNTED + 1),
    }
}

fn account(chance: &mut Chance, id: u64) -> Account {
    Account {
        id,
        balance: held(chance),
        allowance: held(chance),
        offered: held(chance),
        accepted: held(chance),
        pending: count(chance),
        repaid: count(chance),
        blacklisted: chance.percent(10).into(),
    }
}

fn offered(chance: &mut Chance) -> i64 {
    let amount = match chance.below(4) {
        0 => 1 + chance.below(3),
        1 => TRILLION - chance.below(3),
        _ => chance.within(1, TRILLION),
    };
    amount as i64
}

fn invoice(chance: &mut Chance, id: u64, accounts: &[u64]) -> Invoice {
    let originator = chance.pick(accounts);
    let (amount, status) = (offered(chance), chance.pick(&[0, 0, 0, 1, 2]));
    Invoice { id, originator, amount, status }
}

fn time(chance: &mut Chance) -> u64 {
    match chance.below(6) {
        0 => 0,
        1 => u64::MAX - chance.below(3),
        2 => chance.number(),
        _ => chance.below(2_000_000),
    }
}

fn offer(chance: &mut Chance, id: u64, accounts: &[u64], invoices: &[u64], edition: u64) -> Offer {
    let most = most_rounds(edition) as u64;
    let absent = invoices.is_empty() || chance.percent(20);
    let rounds = match chance.below(4) {
        0 => 0,
        1 => chance.within(10, most),
        _ => chance.within(1, 4),
    };
    let offer = Offer {
        id,
        invoice: if absent { chance.number() } else { chance.pick(invoices) },
        lender: chance.pick(accounts),
        amount: offered(chance),
        rate: chance.within(1, 10_000),
        duration: chance.within(86_400, 31_536_000),
        expires: if chance.percent(50) { 0 } else { time(chance) },
        status: chance.pick(&[0, 0, 0, 0, 1, 2, 3, 4, 5]),
        funded: time(chance),
        repaid: held(chance),
        outcome: chance.pick(&[0, 0, 0, 0, 0, 0, 2, 3, 4]),
        deadline: if chance.percent(50) { u64::MAX } else { time(chance) },
        rounds: (0..rounds).map(|_| round(chance)).collect(),
        schedule: chance.percent(50).then(|| schedule(chance)),
    };
    if keeps_terms(edition) {
        with_terms(chance, offer, edition)
    } else {
        offer
    }
}

/// The schedule keeps some terms, is of some kind and has its first installment; the amount repaid is mostly
/// about one of its sums.
fn with_terms(chance: &mut Chance, mut offer: Offer, edition: u64) -> Offer {
    let Some(row) = &mut offer.schedule else { return offer };
    let least = row.count;
    let amount = match chance.below(3) {
        0 => chance.within(least, 4 * least) as i64,
        _ => offered(chance).max(least as i64),
    };
    (row.amount, row.rate) = (amount, chance.pick(&[1, 500, 9_999, 10_000]));
    row.kind = if has_kinds(edition) { chance.pick(&[FLAT, FALLING]) } else { FLAT };
    row.installment = first_installment(row.kind, row.amount, row.count, row.rate);
    if chance.percent(70) {
        let number = chance.pick(&[1, row.count.div_ceil(2), row.count]);
        offer.repaid = sums(row)[number as usize - 1] - 1 + chance.below(3) as i64;
    }
    offer
}

fn round(chance: &mut Chance) -> Round {
    Round {
        party: chance.below(2),
        amount: offered(chance),
        rate: chance.within(1, 10_000),
        duration: chance.within(86_400, 31_536_000),
        time: time(chance),
    }
}

fn schedule(chance: &mut Chance) -> Schedule {
    let installment = match chance.below(4) {
        0 => chance.within(1, 3),
        1 => 2 * TRILLION - chance.below(3),
        _ => chance.within(1, 2 * TRILLION),
    };
    Schedule {
        count: chance.pick(&[1, 2, 12, 1_200]),
        code: chance.within(1, 3),
        installment: installment as i64,
        first: time(chance),
        ..Schedule::default()
    }
}

#[cfg(test)]
mod test {
    use super::*;

    #[test]
    fn given_books_are_sound() {
        let mut chance = Chance::new(7);
        for edition in 1..=journal::LATEST {
            for _ in 0..2_000 {
                assert!(plain::sound(&given(edition, &mut chance)));
            }
        }
    }
}
