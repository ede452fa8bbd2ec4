//! Module 1: the installments of a schedule and what is due of them. Knows nothing of the book.

use side::Schedule;

pub fn period(code: u64) -> Option<u64> {
    match code {
        1 => Some(604_800),
        2 => Some(1_209_600),
        3 => Some(2_592_000),
        _ => None,
    }
}

/// The kinds of schedules.
pub const FLAT: u64 = 0;
pub const FALLING: u64 = 1;

pub fn is_kind(kind: u64) -> bool {
    [FLAT, FALLING].contains(&kind)
}

/// p = floor(amount/count), y = floor(p×rate/10,000), answer p+y.
pub fn installment(amount: i64, count: u64, rate: u64) -> i64 {
    let p = i128::from(amount) / i128::from(count);
    let y = p * i128::from(rate) / 10_000;
    (p + y) as i64
}

/// The principal that an installment repays, but for the last of a falling schedule.
pub fn principal(amount: i64, count: u64) -> i64 {
    amount / count as i64
}

/// What a falling schedule's installment adds: floor(outstanding×rate/(10,000×count)).
fn interest(outstanding: i64, count: u64, rate: u64) -> i64 {
    (i128::from(outstanding) * i128::from(rate) / (10_000 * i128::from(count))) as i64
}

/// The first installment of a schedule of this kind, which is the one that is stored.
pub fn first_installment(kind: u64, amount: i64, count: u64, rate: u64) -> i64 {
    if kind == FALLING {
        principal(amount, count) + interest(amount, count, rate)
    } else {
        installment(amount, count, rate)
    }
}

/// The installments one after the other, where the schedule keeps its terms.
pub fn installments(row: &Schedule) -> Vec<i64> {
    if row.kind == FALLING {
        falling(row)
    } else {
        flat(row)
    }
}

/// count−1 times the stored one, and the last is what is left of amount + floor(amount×rate/10,000).
fn flat(row: &Schedule) -> Vec<i64> {
    let interest = i128::from(row.amount) * i128::from(row.rate) / 10_000;
    let total = i128::from(row.amount) + interest;
    let others = row.count as usize - 1;
    let last = total - others as i128 * i128::from(row.installment);
    [vec![row.installment; others], vec![last as i64]].concat()
}

/// Each repays floor(amount/count) of the principal, the last the rest, with the interest on what was
/// outstanding before it.
fn falling(row: &Schedule) -> Vec<i64> {
    let usual = principal(row.amount, row.count);
    let mut outstanding = row.amount;
    let installment = |number| {
        let interest = interest(outstanding, row.count, row.rate);
        let repaid = if number < row.count { usual } else { outstanding };
        outstanding -= repaid;
        repaid + interest
    };
    (1..=row.count).map(installment).collect()
}

/// What is owed up to and with each installment.
pub fn sums(row: &Schedule) -> Vec<i64> {
    sums_of(&installments(row))
}

pub(crate) fn sums_of(list: &[i64]) -> Vec<i64> {
    let add = |sum: &mut i64, installment: &i64| {
        *sum += installment;
        Some(*sum)
    };
    list.iter().scan(0, add).collect()
}

/// How many installments are paid: those whose sum the amount repaid reaches.
pub fn paid_by_sums(row: &Schedule, repaid: i64) -> u64 {
    sums(row).iter().take_while(|sum| repaid >= **sum).count() as u64
}

/// The number of the installment that is due and what is still owed on it; zeros where none is.
pub type Due = [u64; 2];

const NONE: Due = [0, 0];

/// How many installments have fallen due.
fn elapsed(row: &Schedule, now: u64) -> u64 {
    let period = period(row.code).expect("a sound book's codes are listed");
    match now.checked_sub(row.first) {
        Some(since) => (since / period).saturating_add(1).min(row.count),
        None => 0,
    }
}

/// The first editions' rule: each installment is the stored one, and the paid quotient is compared
/// whole.
pub fn due_by_quotient(row: &Schedule, now: u64, repaid: i64) -> Due {
    let paid = (repaid / row.installment) as u64;
    if paid >= elapsed(row, now) {
        return NONE;
    }
    let number = paid + 1;
    let owed = number as i64 * row.installment - repaid;
    [number, owed as u64]
}

/// An installment is paid when the amount repaid reaches the sum up to it.
pub fn due_by_sums(row: &Schedule, now: u64, repaid: i64) -> Due {
    due_on(row, now, repaid, &installments(row))
}

/// The same for any list of installments.
pub(crate) fn due_on(row: &Schedule, now: u64, repaid: i64, list: &[i64]) -> Due {
    let mut fallen = (1..=elapsed(row, now)).zip(sums_of(list));
    let unpaid = fallen.find(|(_, sum)| repaid < *sum);
    unpaid.map_or(NONE, |(number, sum)| [number, (sum - repaid) as u64])
}

#[cfg(test)]
mod tests {
    use super::*;

    /// 1000 at 500 in three weekly installments.
    const WEEKLY: Schedule = Schedule {
        count: 3,
        code: 1,
        installment: 349,
        first: 1_000_000,
        amount: 1_000,
        rate: 500,
        kind: 0,
    };

    #[test]
    fn installments_at_the_edges_of_document_01() {
        assert_eq!(installment(1000, 3, 500), 333 + 16);
        assert_eq!(installment(1200, 1200, 10_000), 2);
        assert_eq!(installment(1199, 1200, 500), 0);
    }

    #[test]
    fn due_at_the_edges_of_document_01() {
        let weekly = |now, repaid| due_by_quotient(&WEEKLY, now, repaid);
        assert_eq!(weekly(999_999, 0), [0, 0]);
        assert_eq!(weekly(1_000_000, 0), [1, 349]);
        assert_eq!(weekly(1_604_799, 349), [0, 0]);
        assert_eq!(weekly(1_604_800, 349), [2, 349]);
        assert_eq!(weekly(1_604_800, 697), [2, 1]);
        assert_eq!(weekly(1_604_800, 698), [0, 0]);
        assert_eq!(weekly(u64::MAX, 698), [3, 349]);
        assert_eq!(weekly(u64::MAX, 1_046), [3, 1]);
        assert_eq!(weekly(u64::MAX, 1_047), [0, 0]);
    }

    #[test]
    fn the_last_installment_carries_what_is_left() {
        assert_eq!(installments(&WEEKLY), [349, 349, 352]);
        assert_eq!(sums(&WEEKLY), [349, 698, 1_050]);
        let single = Schedule { count: 1, installment: 1_050, ..WEEKLY };
        assert_eq!(installments(&single), [1_050]);
        let most = 1_000_000_000_000;
        let (count, amount, rate) = (1_200, most, 10_000);
        let longest = Schedule {
            count,
            installment: installment(amount, count, rate),
            amount,
            rate,
            ..WEEKLY
        };
        assert_eq!(sums(&longest).last(), Some(&(2 * most)));
        assert_eq!(installments(&longest).last(), Some(&1_666_667_466));
    }

    /// A falling schedule of these terms, with its installment.
    fn falling_of(amount: i64, count: u64, rate: u64) -> Schedule {
        let installment = first_installment(FALLING, amount, count, rate);
        Schedule { count, installment, amount, rate, kind: FALLING, ..WEEKLY }
    }

    /// Interest on 1000, 667 and 334 at 500 in three parts: 16.6, 11.1 and 5.5.
    #[test]
    fn falling_installments_add_interest_on_what_is_outstanding() {
        let falling = falling_of(1_000, 3, 500);
        assert_eq!(falling.installment, 349);
        assert_eq!(installments(&falling), [333 + 16, 333 + 11, 334 + 5]);
        assert_eq!(sums(&falling), [349, 693, 1_032]);
        assert_eq!(installments(&falling_of(1_000, 1, 500)), [1_050]);
        assert_eq!(installments(&falling_of(3, 2, 5_000)), [1, 2]);
        assert_eq!(installments(&falling_of(1_200, 1_200, 10_000))[..2], [2, 1]);
        assert_eq!(installments(&falling_of(1_199, 600, 1)).last(), Some(&600));
        let most = 1_000_000_000_000;
        assert_eq!(installments(&falling_of(most, 1, 10_000)), [2 * most]);
    }

    /// Each is positive, none but the last is more than the one before, the first is the stored one, and
    /// the principal over all of them is the amount.
    #[test]
    fn falling_installments_fall_and_repay_the_amount() {
        let amounts = [1, 2, 3, 7, 11, 12, 13, 905, 1_199, 1_200, 1_201, 999_999_999_999];
        for amount in amounts {
            for count in [1, 2, 3, 11, 12, 600, 1_199, 1_200] {
                for rate in [1, 3, 500, 9_999, 10_000] {
                    let row = falling_of(amount, count, rate);
                    assert_eq!(row.installment == 0, principal(amount, count) == 0);
                    if row.installment == 0 {
                        continue;
                    }
                    let (list, usual) = (installments(&row), principal(amount, count));
                    let others = &list[..count as usize - 1];
                    assert_eq!(list[0], row.installment);
                    assert!(list.iter().all(|installment| *installment > 0));
                    assert!(others.windows(2).all(|two| two[1] <= two[0]));
                    let interests = (0..count as i64)
                        .map(|before| interest(amount - before * usual, count, rate));
                    let total = amount + interests.sum::<i64>();
                    assert_eq!(sums(&row).last(), Some(&total), "{amount} {count} {rate}");
                }
            }
        }
    }

    #[test]
    fn a_falling_installment_is_paid_by_its_sum() {
        let weekly = |now, repaid| due_by_sums(&falling_of(1_000, 3, 500), now, repaid);
        for (repaid, due) in [
            (0, [1, 349]),
            (348, [1, 1]),
            (349, [2, 344]),
            (692, [2, 1]),
            (693, [3, 339]),
            (698, [3, 334]),
            (1_031, [3, 1]),
            (1_032, [0, 0]),
            (1_047, [0, 0]),
        ] {
            assert_eq!(weekly(2_209_600, repaid), due, "{repaid}");
            assert_eq!(weekly(u64::MAX, repaid), due, "{repaid}");
        }
        assert_eq!(weekly(999_999, 0), [0, 0]);
        assert_eq!(weekly(1_604_799, 349), [0, 0]);
        assert_eq!(weekly(1_604_800, 349), [2, 344]);
        assert_eq!(weekly(2_209_599, 693), [0, 0]);
    }

    #[test]
    fn an_installment_is_paid_by_its_sum() {
        let weekly = |now, repaid| due_by_sums(&WEEKLY, now, repaid);
        let all = [(348, [1, 1]), (349, [2, 349]), (697, [2, 1]), (698, [3, 352])];
        for (repaid, due) in all {
            assert_eq!(weekly(2_209_600, repaid), due, "{repaid}");
        }
        for (repaid, due) in [(1_047, [3, 3]), (1_049, [3, 1]), (1_050, [0, 0]), (1_051, [0, 0])] {
            assert_eq!(weekly(u64::MAX, repaid), due, "{repaid}");
        }
        assert_eq!(weekly(999_999, 0), [0, 0]);
        assert_eq!(weekly(1_000_000, 0), [1, 349]);
        assert_eq!(weekly(1_604_799, 349), [0, 0]);
        assert_eq!(weekly(1_604_800, 349), [2, 349]);
        assert_eq!(weekly(2_209_599, 698), [0, 0]);
    }

    /// Where nothing is left over, both rules say the same.
    #[test]
    fn equal_installments_are_due_by_either_rule() {
        let even = Schedule { amount: 999, rate: 10_000, installment: 666, ..WEEKLY };
        for now in [999_999, 1_000_000, 1_604_800, 2_209_600, u64::MAX] {
            for repaid in [0, 1, 665, 666, 667, 1_331, 1_332, 1_997, 1_998, 1_999, i64::MAX] {
                let both = [due_by_quotient(&even, now, repaid), due_by_sums(&even, now, repaid)];
                assert_eq!(both[0], both[1], "{now} {repaid}");
            }
        }
    }
}
