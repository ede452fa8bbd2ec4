//! The four books whose snapshots are damaged byte by byte: two of edition 3, the first without a
//! field that says so, one of edition 4 and one of edition 5.

use plain::edition::{fresh, OF_OLD_SNAPSHOTS};
use plain::schedule::FALLING;
use plain::snapshot::write;
use plain::Plain;
use side::{Account, Book, Invoice, Offer, Round, Schedule, Side, Totals};

use super::without_edition;
use crate::chance::Chance;
use crate::generate::{Generator, Plan};

/// So long at most, so that every damage can be tried.
const LONGEST: usize = 1_300;

/// A snapshot and its name.
pub struct Sample {
    pub name: &'static str,
    pub bytes: Vec<u8>,
}

pub fn samples() -> [Sample; 4] {
    let sample = |name, book: &Book| {
        let bytes = write(book).expect("the sample's books are sound");
        Sample { name, bytes }
    };
    let small = sample("small", &small());
    let old = Sample { name: "old", bytes: without_edition(&small.bytes).to_vec() };
    [old, sample("middle", &middle()), sample("generated", &generated()), sample("kept", &kept())]
}

/// Two accounts, an invoice, an offer on it with two rounds and a schedule.
fn small() -> Book {
    let account = |id| Account { id, ..Account::default() };
    let lender =
        Account { balance: 5_000, allowance: 5_000, offered: 900, pending: 1, ..account(1) };
    let duration = 86_400;
    let counter = Round { party: 1, amount: 900, rate: 400, duration, time: 100 };
    let amend = Round { party: 0, amount: 900, rate: 500, duration, time: 160 };
    let (count, code, installment, first) = (3, 1, 315, 1_000_000);
    let schedule = Schedule { count, code, installment, first, ..Schedule::default() };
    let offer = Offer {
        id: 20,
        invoice: 10,
        lender: 1,
        amount: 900,
        rate: 500,
        duration,
        deadline: 259_300,
        rounds: vec![counter, amend],
        schedule: Some(schedule),
        ..Offer::default()
    };
    Book {
        repayment: Some(2),
        totals: Totals { offers: 1, ..Totals::default() },
        accounts: vec![lender, account(2)],
        invoices: vec![Invoice { id: 10, originator: 2, amount: 2_000, status: 0 }],
        offers: vec![offer],
        ..fresh(OF_OLD_SNAPSHOTS)
    }
}

/// The small book in edition 5, with the offer as it is after an amendment and the schedule as it was
/// made before: of 905 in three falling installments, 301 and 15, 301 and 10, 303 and 5. One is owed on the
/// last. The first is a flat schedule's too, so that a book with the other kind is sound.
fn kept() -> Book {
    let mut book = Book { edition: 5, ..small() };
    let offer = &mut book.offers[0];
    offer.repaid = 316 + 311 + 307;
    let schedule = offer.schedule.as_mut().expect("the small book has a schedule");
    (schedule.amount, schedule.rate, schedule.installment) = (905, 500, 316);
    schedule.kind = FALLING;
    book
}

/// Numbers at the ends of their ranges, ids beside each other, an idle repayment account, an offer
/// without rounds and one without a schedule.
fn middle() -> Book {
    let most = 4_000_000_000_000_000;
    let full = Account {
        id: u64::MAX,
        balance: most,
        allowance: most,
        offered: most,
        accepted: most,
        pending: 1_000_000,
        repaid: 1_000_000,
        blacklisted: 1,
    };
    let invoice = Invoice { id: 255, originator: 9, amount: 1_000_000_000_000, status: 2 };
    let bare = Offer { id: 256, amount: 1, rate: 1, duration: 86_400, ..Offer::default() };
    let round = Round { party: 1, amount: 1, rate: 10_000, duration: 31_536_000, time: u64::MAX };
    let closed = Offer {
        id: 257,
        invoice: 7,
        amount: 1_000_000_000_000,
        expires: u64::MAX,
        status: 5,
        repaid: most,
        outcome: 4,
        deadline: 1,
        rounds: vec![round],
        ..bare.clone()
    };
    let (count, code, installment) = (1_200, 3, 2_000_000_000_000);
    let longest = Schedule { count, code, installment, ..Schedule::default() };
    Book {
        paused: true,
        window: 2_592_000,
        seats: u32::MAX.into(),
        threshold: 32,
        idle: 5,
        totals: Totals { offers: 1_000_000, financed: most, repaid: most, fees: most },
        accounts: vec![Account::default(), full],
        invoices: vec![invoice, Invoice { id: 256, amount: 1, ..Invoice::default() }],
        offers: vec![Offer { schedule: Some(longest), ..bare }, closed],
        ..fresh(3)
    }
}

/// The last book of the generator's commands whose snapshot is not too long; its offer has more rounds
/// than an earlier edition allows.
fn generated() -> Book {
    let mut chance = Chance::new(2_118);
    let plan = Plan { accounts: 2, invoices: 1, offers: 1, ..Plan::new(&mut chance) };
    let mut generator = Generator::new(chance, plan);
    let (mut plain, mut last) = (Plain::default(), fresh(4));
    plain.reset(4);
    while plain.snapshot(LONGEST).is_ok() {
        last = plain.book().clone();
        plain.run(&generator.next(&last));
    }
    last
}

#[cfg(test)]
mod test {
    use super::*;

    #[test]
    fn the_samples_are_as_long_as_they_should_be() {
        let lengths = samples().map(|sample| sample.bytes.len());
        assert!(lengths[..2] == [660, 847] && lengths[2] <= LONGEST, "{lengths:?}");
        assert_eq!(lengths[3], 671 + 33);
        let book = generated();
        let rounds = book.offers.iter().map(|row| row.rounds.len());
        assert!(book.accounts.len() > 1 && rounds.max() > Some(12), "{book:?}");
    }
}
