//! When a book is sound, as document 01's paragraph says. Its edition is a listed one.

use side::{Account, Book, Invoice, Offer, Schedule};

use crate::edition::{has_kinds, is_listed, keeps_terms, most_rounds};
use crate::money::{HELD, MOST_COUNTED, MOST_ROWS, OFFERED};
use crate::schedule::{first_installment, is_kind, period, principal, FALLING, FLAT};
use crate::terms::terms_valid;

pub fn sound(book: &Book) -> bool {
    let totals = &book.totals;
    let money = [totals.financed, totals.repaid, totals.fees];
    let seats = u64::from(book.seats.count_ones());
    is_listed(book.edition)
        && money.iter().all(|total| HELD.contains(total))
        && totals.offers <= MOST_COUNTED
        && (3_600..=2_592_000).contains(&book.window)
        && book.seats <= u32::MAX.into()
        && (1..=seats).contains(&book.threshold)
        && table(book.accounts.iter().map(|row| row.id))
        && table(book.invoices.iter().map(|row| row.id))
        && table(book.offers.iter().map(|row| row.id))
        && book.accounts.iter().all(sound_account)
        && book.invoices.iter().all(sound_invoice)
        && book.offers.iter().all(|row| sound_offer(row, book.edition))
}

fn table(ids: impl ExactSizeIterator<Item = u64> + Clone) -> bool {
    ids.len() <= MOST_ROWS && ids.clone().zip(ids.skip(1)).all(|(id, next)| id < next)
}

fn sound_account(row: &Account) -> bool {
    let money = [row.balance, row.allowance, row.offered, row.accepted];
    money.iter().all(|figure| HELD.contains(figure))
        && row.pending <= MOST_COUNTED
        && row.repaid <= MOST_COUNTED
        && row.blacklisted <= 1
}

fn sound_invoice(row: &Invoice) -> bool {
    OFFERED.contains(&row.amount) && row.status <= 2
}

fn sound_offer(row: &Offer, edition: u64) -> bool {
    let rounds = row.rounds.iter().all(|round| {
        round.party <= 1 && terms_valid(&crate::negotiation::round_terms(round)).is_ok()
    });
    terms_valid(&crate::negotiation::offer_terms(row)).is_ok()
        && row.status <= 5
        && HELD.contains(&row.repaid)
        && [0, 2, 3, 4].contains(&row.outcome)
        && rounds
        && row.rounds.len() <= most_rounds(edition)
        && row.schedule.as_ref().is_none_or(|row| sound_schedule(row, edition))
}

/// Where terms are kept, the stored installment is the first of their list. What an edition lacks is 0.
fn sound_schedule(row: &Schedule, edition: u64) -> bool {
    (1..=1200).contains(&row.count)
        && period(row.code).is_some()
        && (1..=2_000_000_000_000).contains(&row.installment)
        && sound_kind(row, edition)
        && if keeps_terms(edition) {
            OFFERED.contains(&row.amount)
                && (1..=10_000).contains(&row.rate)
                && row.installment == first_installment(row.kind, row.amount, row.count, row.rate)
        } else {
            (row.amount, row.rate) == (0, 0)
        }
}

/// Every installment of a falling schedule repays some of the principal.
fn sound_kind(row: &Schedule, edition: u64) -> bool {
    if has_kinds(edition) {
        is_kind(row.kind) && (row.kind != FALLING || principal(row.amount, row.count) >= 1)
    } else {
        row.kind == FLAT
    }
}

#[cfg(test)]
mod tests {
    use side::Round;

    use super::*;

    #[test]
    fn each_fault_is_seen() {
        let account = |id| Account { id, ..Account::default() };
        let fresh = Book::fresh();
        assert!(sound(&fresh));
        assert!(sound(&Book { accounts: vec![account(0), account(u64::MAX)], ..fresh.clone() }));
        let faults = [
            Book { edition: 0, ..fresh.clone() },
            Book { edition: journal::LATEST + 1, ..fresh.clone() },
            Book { threshold: 0, ..fresh.clone() },
            Book { threshold: 2, ..fresh.clone() },
            Book { seats: 1 << 32 | 1, ..fresh.clone() },
            Book { window: 3_599, ..fresh.clone() },
            Book { accounts: vec![account(2), account(1)], ..fresh.clone() },
            Book { accounts: vec![account(1), account(1)], ..fresh.clone() },
            Book { accounts: vec![Account { balance: -1, ..account(1) }], ..fresh.clone() },
            Book { accounts: (0..65).map(account).collect(), ..fresh.clone() },
            Book { invoices: vec![Invoice::default()], ..fresh.clone() },
            Book { offers: vec![Offer::default()], ..fresh },
        ];
        for (number, book) in faults.iter().enumerate() {
            assert!(!sound(book), "fault {number}");
        }
    }

    #[test]
    fn an_offer_has_the_rounds_of_its_edition() {
        let (amount, rate, duration) = (1, 1, 86_400);
        let round = Round { amount, rate, duration, ..Round::default() };
        let with_rounds = |edition, rounds| {
            let rounds = vec![round; rounds];
            let offer = Offer { amount, rate, duration, rounds, ..Offer::default() };
            Book { edition, offers: vec![offer], ..Book::fresh() }
        };
        for (edition, most) in [(1, 12), (2, 12), (3, 12), (4, 16), (5, 16)] {
            assert!(sound(&with_rounds(edition, most)), "{edition}");
            assert!(!sound(&with_rounds(edition, most + 1)), "{edition}");
        }
    }

    /// 1000 at 500 in three installments of 349, the last of which is not stored.
    #[test]
    fn a_schedule_keeps_terms_from_edition_5_on() {
        let bare = Schedule { count: 3, code: 1, installment: 349, ..Schedule::default() };
        let kept = Schedule { amount: 1_000, rate: 500, ..bare };
        let with = |edition, schedule| {
            let schedule = Some(schedule);
            let offer =
                Offer { amount: 7, rate: 7, duration: 86_400, schedule, ..Offer::default() };
            sound(&Book { edition, offers: vec![offer], ..Book::fresh() })
        };
        for edition in 1..=journal::LATEST {
            assert_eq!(with(edition, bare), edition < 5, "{edition}");
            assert_eq!(with(edition, kept), edition >= 5, "{edition}");
            assert!(!with(edition, Schedule { amount: 1_000, ..bare }), "{edition}");
            assert!(!with(edition, Schedule { rate: 500, ..bare }), "{edition}");
            assert!(!with(edition, Schedule { kind: 1, ..bare }), "{edition}");
            assert!(!with(edition, Schedule { kind: 2, ..bare }), "{edition}");
            assert!(!with(edition, Schedule { kind: 2, ..kept }), "{edition}");
            assert_eq!(with(edition, Schedule { kind: 1, ..kept }), edition >= 5, "{edition}");
        }
        assert!(with(5, Schedule { amount: 1_001, ..kept }));
        let faults = [
            Schedule { installment: 348, ..kept },
            Schedule { installment: 350, ..kept },
            Schedule { count: 2, ..kept },
            Schedule { amount: 999 + 3, ..kept },
            Schedule { rate: 511, ..kept },
            Schedule { amount: -1_000, ..kept },
            Schedule { amount: 2, installment: 0, ..kept },
            Schedule { amount: 1_000_000_000_001, rate: 1, installment: 333_366_666_666, ..kept },
            Schedule { rate: 10_001, installment: 333 + 333, ..kept },
            Schedule { rate: 0, installment: 333, ..kept },
            Schedule { kind: u64::MAX, ..kept },
            Schedule { kind: 1 << 32, ..kept },
            Schedule { kind: (1 << 32) + 1, ..kept },
        ];
        for (number, fault) in faults.into_iter().enumerate() {
            assert!(!with(5, fault), "fault {number}");
        }
    }

    /// 5 at 7500 in three: 1 each with no interest on 1, and falling 1 with 1 of interest on 5.
    #[test]
    fn a_stored_installment_is_the_first_of_its_kind() {
        let with = |kind, amount, count, installment| {
            let schedule = Schedule {
                count,
                code: 1,
                installment,
                amount,
                rate: 7_500,
                kind,
                ..Schedule::default()
            };
            let (rate, duration, schedule) = (1, 86_400, Some(schedule));
            let offer = Offer { amount: 1, rate, duration, schedule, ..Offer::default() };
            sound(&Book { edition: 5, offers: vec![offer], ..Book::fresh() })
        };
        assert!(with(0, 5, 3, 1) && with(1, 5, 3, 2));
        assert!(!with(0, 5, 3, 2) && !with(1, 5, 3, 1) && !with(1, 5, 3, 3));
        assert!(with(1, 3, 3, 1) && with(1, 1_200, 1_200, 1) && with(1, 1, 1, 1));
        for installment in [0, 1, 2] {
            assert!(!with(1, 2, 3, installment) && !with(1, 1_199, 1_200, installment));
            assert!(!with(0, 2, 3, installment));
        }
    }
}
