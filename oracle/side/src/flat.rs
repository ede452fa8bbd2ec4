//! The book as one flat list of 64-bit numbers, in which both sides show their whole state.
//!
//! Amounts are in two's complement. The list is, in this order and with nothing between:
//!
//! | numbers | what |
//! |---|---|
//! | 1 | the edition |
//! | 1 | paused: 0 or 1 |
//! | 1 | window |
//! | 1 | seats, a bit each |
//! | 1 | threshold |
//! | 1 | whether a repayment account is set: 0 or 1 |
//! | 1 | the repayment account; where none is set, the idle id in its place |
//! | 4 | totals: offers, financed, repaid, fees |
//! | 1 | A, the number of accounts |
//! | A × 8 | id, balance, allowance, offered, accepted, offers pending, offers repaid, blacklisted (0 or 1) |
//! | 1 | I, the number of invoices |
//! | I × 4 | id, originator, amount, status |
//! | 1 | F, the number of offers |
//! | F times | an offer, as below |
//!
//! An offer is 20 numbers and five for each round:
//!
//! | numbers | what |
//! |---|---|
//! | 10 | id, invoice, lender, amount, rate, duration, expires, status, funded, amount repaid |
//! | 1 | stored outcome, 0 where none is stored |
//! | 1 | deadline |
//! | 7 | schedule: count, code, installment, first due, kept amount, kept rate, kind; zeros where there is none |
//! | 1 | R, the number of rounds |
//! | R × 5 | party (0 lender, 1 originator), amount, rate, duration, time |
//!
//! Rows stand in ascending order of id.

use crate::rows::{Account, Book, Invoice, Offer, Round, Schedule, Totals};

impl Book {
    pub fn flat(&self, out: &mut Vec<u64>) {
        let repayment = [self.repayment.is_some().into(), self.repayment.unwrap_or(self.idle)];
        out.clear();
        out.push(self.edition);
        out.extend([self.paused.into(), self.window, self.seats, self.threshold]);
        out.extend(repayment);
        let totals = &self.totals;
        let money = [totals.financed, totals.repaid, totals.fees].map(|sum| sum as u64);
        out.push(totals.offers);
        out.extend(money);
        out.push(self.accounts.len() as u64);
        self.accounts.iter().for_each(|account| out.extend(account.flat()));
        out.push(self.invoices.len() as u64);
        for row in &self.invoices {
            out.extend([row.id, row.originator, row.amount as u64, row.status]);
        }
        out.push(self.offers.len() as u64);
        self.offers.iter().for_each(|offer| offer.flat(out));
    }

    /// The book that a flat list shows, if it shows one.
    pub fn of_flat(numbers: &[u64]) -> Option<Book> {
        let mut from = Numbers(numbers);
        let edition = from.one()?;
        let [paused, window, seats, threshold, set, repayment] = from.take()?;
        let [offers, financed, repaid, fees] = from.take()?;
        let [financed, repaid, fees] = [financed, repaid, fees].map(|sum| sum as i64);
        let mut book = Book {
            edition,
            paused: paused == 1,
            window,
            seats,
            threshold,
            repayment: (set == 1).then_some(repayment),
            idle: if set == 1 { 0 } else { repayment },
            totals: Totals { offers, financed, repaid, fees },
            ..Book::default()
        };
        for _ in 0..from.one()? {
            book.accounts.push(Account::of_flat(from.take()?));
        }
        for _ in 0..from.one()? {
            let [id, originator, amount, status] = from.take()?;
            book.invoices.push(Invoice { id, originator, amount: amount as i64, status });
        }
        for _ in 0..from.one()? {
            book.offers.push(offer_of(&mut from)?);
        }
        from.0.is_empty().then_some(book)
    }
}

struct Numbers<'a>(&'a [u64]);

impl Numbers<'_> {
    fn take<const N: usize>(&mut self) -> Option<[u64; N]> {
        let (front, rest) = self.0.split_first_chunk()?;
        self.0 = rest;
        Some(*front)
    }

    fn one(&mut self) -> Option<u64> {
        self.take().map(|[number]| number)
    }
}

impl Account {
    fn flat(&self) -> [u64; 8] {
        let money = [self.balance, self.allowance, self.offered, self.accepted];
        let [balance, allowance, offered, accepted] = money.map(|sum| sum as u64);
        let (pending, repaid, listed) = (self.pending, self.repaid, self.blacklisted);
        [self.id, balance, allowance, offered, accepted, pending, repaid, listed]
    }

    fn of_flat(numbers: [u64; 8]) -> Account {
        let [id, balance, allowance, offered, accepted, pending, repaid, blacklisted] = numbers;
        let money = [balance, allowance, offered, accepted].map(|sum| sum as i64);
        let [balance, allowance, offered, accepted] = money;
        Account { id, balance, allowance, offered, accepted, pending, repaid, blacklisted }
    }
}

impl Offer {
    fn flat(&self, out: &mut Vec<u64>) {
        let schedule = self.schedule.unwrap_or_default();
        out.extend(self.ten());
        out.extend([self.outcome, self.deadline, schedule.count, schedule.code]);
        out.extend([schedule.installment as u64, schedule.first]);
        out.extend([schedule.amount as u64, schedule.rate, schedule.kind]);
        out.push(self.rounds.len() as u64);
        for round in &self.rounds {
            out.extend([round.party, round.amount as u64, round.rate]);
            out.extend([round.duration, round.time]);
        }
    }
}

fn offer_of(from: &mut Numbers) -> Option<Offer> {
    let [id, invoice, lender, amount, rate, duration, expires, status, funded, repaid] =
        from.take()?;
    let [outcome, deadline] = from.take()?;
    let schedule = schedule_of(from.take()?);
    let mut rounds = Vec::new();
    for _ in 0..from.one()? {
        let [party, amount, rate, duration, time] = from.take()?;
        rounds.push(Round { party, amount: amount as i64, rate, duration, time });
    }
    let (amount, repaid) = (amount as i64, repaid as i64);
    Some(Offer {
        id,
        invoice,
        lender,
        amount,
        rate,
        duration,
        expires,
        status,
        funded,
        repaid,
        outcome,
        deadline,
        rounds,
        schedule,
    })
}

/// Without installments there is none.
fn schedule_of(numbers: [u64; 7]) -> Option<Schedule> {
    let [count, code, installment, first, amount, rate, kind] = numbers;
    let (installment, amount) = (installment as i64, amount as i64);
    (count != 0).then_some(Schedule { count, code, installment, first, amount, rate, kind })
}

#[cfg(test)]
mod test {
    use super::*;

    fn sample() -> Book {
        let round = Round { party: 1, amount: 7, rate: 8, duration: 9, time: 10 };
        let (installment, amount, rate) = (349, 1_000, 500);
        let schedule =
            Schedule { count: 3, code: 2, installment, first: 11, amount, rate, kind: 1 };
        let schedule = Some(schedule);
        let offer = Offer { id: 20, amount: 6, outcome: 3, schedule, ..Offer::default() };
        let rounds = vec![round, Round { party: 0, ..round }];
        let offers = vec![offer.clone(), Offer { id: 21, rounds, schedule: None, ..offer }];
        let accounts = vec![Account { id: 1, balance: -5, accepted: 4, ..Account::default() }];
        let invoices = vec![Invoice { id: 10, originator: 2, amount: 3, status: 1 }];
        Book { edition: 2, repayment: Some(0), accounts, invoices, offers, ..Book::fresh() }
    }

    #[test]
    fn the_flat_list_shows_the_whole_book() {
        let mut flat = Vec::new();
        for book in [Book::fresh(), Book { idle: 7, ..Book::fresh() }, sample()] {
            book.flat(&mut flat);
            assert_eq!(Book::of_flat(&flat), Some(book));
        }
        assert_eq!(flat.len(), 11 + 1 + 8 + 1 + 4 + 1 + 2 * 20 + 2 * 5);
        assert_eq!(flat[..3], [2, 0, 604_800]);
        let offer = 11 + 1 + 8 + 1 + 4 + 1;
        assert_eq!(flat[offer + 12..offer + 20], [3, 2, 349, 11, 1_000, 500, 1, 0]);
        assert_eq!(Book::of_flat(&flat[1..]), None);
    }
}
