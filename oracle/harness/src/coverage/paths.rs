//! Paths that a comparison of some length must have walked.

use journal::{Command, Numbers};
use plain::edition::{has_kinds, holds_amount, keeps_terms, most_rounds};
use plain::schedule::{is_kind, period, principal, sums, FALLING, FLAT};
use side::{Book, Invoice, Offer, Round, Schedule};

/// An answered command on an offer, with the offer before and after it and the invoice.
struct Walk<'a> {
    tag: u8,
    numbers: Numbers,
    answer: u64,
    was: &'a Offer,
    is: &'a Offer,
    invoice: Option<&'a Invoice>,
    most_rounds: usize,
}

type Terms = (u64, u64, u64);

const AMEND: u8 = 0x35;
const COUNTER: u8 = 0x36;
const SCHEDULE: u8 = 0x38;

impl Walk<'_> {
    fn now(&self) -> u64 {
        self.numbers[0x01]
    }

    fn accepted(&self, tag: u8) -> bool {
        self.tag == tag && self.answer == 0
    }

    fn settles(&self, tag: u8) -> bool {
        self.accepted(tag) && self.was.status == 0 && self.is.status == 1
    }

    fn is_round(&self) -> bool {
        [AMEND, COUNTER].contains(&self.tag)
    }

    fn adds_round(&self) -> bool {
        self.is_round() && self.is.rounds.len() > self.was.rounds.len()
    }

    fn asked(&self) -> Terms {
        (self.numbers[0x05], self.numbers[0x06], self.numbers[0x07])
    }

    /// The originator's rounds, latest first.
    fn counters(&self) -> impl Iterator<Item = Terms> + '_ {
        let counters = self.was.rounds.iter().rev().filter(|round| round.party == 1);
        counters.map(|round: &Round| (round.amount as u64, round.rate, round.duration))
    }

    fn meets_latest(&self) -> bool {
        self.counters().next() == Some(self.asked())
    }

    fn agrees(&self) -> bool {
        let present = (self.was.amount as u64, self.was.rate, self.was.duration);
        let met = if self.tag == AMEND { self.meets_latest() } else { present == self.asked() };
        self.is_round() && met
    }

    /// A round by its party and with terms within their ranges: the amount is tested next.
    fn reaches_amount(&self, tag: u8) -> bool {
        let (amount, rate, duration) = self.asked();
        let ranges = (1..=1_000_000_000_000).contains(&amount)
            && (1..=10_000).contains(&rate)
            && (86_400..=31_536_000).contains(&duration);
        self.tag == tag && ranges && self.by_party()
    }

    /// The lender amends, the originator counters.
    fn by_party(&self) -> bool {
        let originator = self.invoice.map(|row| row.originator);
        let party = if self.tag == AMEND { Some(self.was.lender) } else { originator };
        party == Some(self.numbers[0x02])
    }

    /// A round that comes after so many, by its place in the command too.
    fn comes_after(&self, rounds: usize) -> bool {
        self.was.rounds.len() == rounds && self.numbers[0x09] == rounds as u64
    }

    /// Refused for want of room for a round after so many: nothing else stands against it.
    fn refused_after(&self, rounds: usize) -> bool {
        self.is_round() && self.comes_after(rounds) && !self.is_late() && self.answer == 7
    }

    /// By how much the amount is above the invoice's; 0 where it is not.
    fn above(&self) -> u64 {
        let invoiced = self.invoice.map_or(u64::MAX, |row| row.amount as u64);
        (self.asked().0 as i64).max(0).unsigned_abs().saturating_sub(invoiced)
    }

    /// Refused for an amount above the invoice's, whatever the tests after it would say.
    fn refused_above(&self, tag: u8) -> bool {
        self.reaches_amount(tag) && self.above() > 0 && self.answer == 3
    }

    fn is_invoiced(&self) -> bool {
        self.invoice.is_some_and(|row| row.amount as u64 == self.asked().0)
    }

    /// The negotiation would refuse the round with 7: the offer is not Pending, or it is decided or over.
    fn is_late(&self) -> bool {
        let over = !self.was.rounds.is_empty() && self.now() > self.was.deadline;
        self.was.status != 0 || self.was.outcome != 0 || over
    }
}

impl Walk<'_> {
    /// An update of the amount repaid on an offer that is not over, with its schedule and whether it is
    /// paid as far as this says, by the amount repaid and the sums up to each installment.
    fn repays(&self, paid: fn(i64, &Schedule, &[i64]) -> bool) -> bool {
        let schedule = self.is.schedule.filter(|_| self.accepted(0x42) && self.is.status < 4);
        schedule.is_some_and(|row| paid(self.is.repaid, &row, &sums(&row)))
    }

    /// Whether the terms of the offer are others than its schedule has kept.
    fn parts_from_kept(&self) -> bool {
        let terms = (self.is.amount, self.is.rate);
        self.is.schedule.is_some_and(|row| (row.amount, row.rate) != terms)
    }
}

impl Walk<'_> {
    fn kind(&self) -> u64 {
        self.numbers[0x14]
    }

    fn count(&self) -> u64 {
        self.numbers[0x0A]
    }

    fn makes(&self, kind: u64) -> bool {
        self.accepted(SCHEDULE) && self.kind() == kind
    }

    fn replaces(&self, kind: u64, by: u64) -> bool {
        self.makes(by) && self.was.schedule.is_some_and(|row| row.kind == kind)
    }

    /// A schedule that its fields alone, but for its kind, do not refuse.
    fn asks_schedule(&self) -> bool {
        let listed = period(self.numbers[0x0B]).is_some();
        let later = self.numbers[0x0C] > self.now();
        self.tag == SCHEDULE && (1..=1_200).contains(&self.count()) && later && listed
    }

    /// The offer takes a schedule of its lender or originator.
    fn takes_schedule(&self) -> bool {
        let by = |id: u64| id == self.numbers[0x02];
        let party = by(self.was.lender) || self.invoice.is_some_and(|row| by(row.originator));
        [0, 1, 3].contains(&self.was.status) && self.invoice.is_some() && party
    }

    /// Refused for its kind, which there is not.
    fn refused_kind(&self) -> bool {
        self.asks_schedule() && !is_kind(self.kind()) && self.answer == 3
    }

    /// Each installment repays so much principal.
    fn repays_principal(&self, usual: i64) -> bool {
        self.kind() == FALLING && principal(self.was.amount, self.count().max(1)) == usual
    }

    /// An amount repaid on a falling schedule, as `repays` says.
    fn repays_falling(&self, paid: fn(i64, &Schedule, &[i64]) -> bool) -> bool {
        let falling = self.is.schedule.is_some_and(|row| row.kind == FALLING);
        falling && self.repays(paid)
    }
}

type Path = (&'static str, fn(&Walk) -> bool);

const ON_OFFERS: [Path; 15] = [
    ("an amendment settles", |walk| walk.settles(AMEND)),
    ("a counter settles", |walk| walk.settles(COUNTER)),
    ("an accept settles", |walk| walk.settles(0x33)),
    ("an accept settles after the negotiation was closed", |walk| {
        walk.settles(0x33) && walk.was.outcome == 2
    }),
    ("an amendment equals an old counter, not the latest, and does not settle", |walk| {
        let old = walk.counters().skip(1).any(|terms| terms == walk.asked());
        walk.accepted(AMEND) && old && !walk.meets_latest()
    }),
    ("terms agree and the agreement is refused: expiry, allowance or balance", |walk| {
        walk.agrees() && [8, 9, 10].contains(&walk.answer)
    }),
    ("terms agree and the agreement is refused: the invoice is no longer Pending", |walk| {
        walk.agrees() && walk.was.status == 0 && walk.was.outcome == 0 && walk.answer == 7
    }),
    ("the last round that an offer may have is added", |walk| {
        walk.adds_round() && walk.is.rounds.len() == walk.most_rounds
    }),
    ("a round more is refused", |walk| {
        let rounds = walk.was.rounds.len();
        let last = rounds == walk.most_rounds && walk.numbers[0x09] == rounds as u64;
        walk.is_round() && last && walk.was.outcome == 0 && walk.answer == 7
    }),
    ("a round is added at the very deadline", |walk| {
        walk.adds_round() && !walk.was.rounds.is_empty() && walk.was.deadline == walk.now()
    }),
    ("a deadline stops at 2^64-1", |walk| {
        let first = walk.was.rounds.is_empty() && walk.is.deadline == u64::MAX;
        walk.adds_round() && first && walk.now() > u64::MAX - 3_600
    }),
    ("an amendment lowers the offered total", |walk| {
        walk.accepted(AMEND) && walk.is.amount < walk.was.amount
    }),
    ("a negotiation is closed as Expired", |walk| walk.accepted(0x37) && walk.is.outcome == 4),
    ("a schedule is replaced", |walk| walk.accepted(0x38) && walk.was.schedule.is_some()),
    ("repayment sets a settled offer back to Pending", |walk| {
        walk.accepted(0x41) && walk.was.status == 1 && walk.is.status == 0
    }),
];

/// Where an offer may have more than twelve rounds.
const ON_MORE_ROUNDS: [Path; 6] = [
    ("an amendment is the thirteenth round", |walk| walk.accepted(AMEND) && walk.comes_after(12)),
    ("a counter is the thirteenth round", |walk| walk.accepted(COUNTER) && walk.comes_after(12)),
    ("an amendment settles past the twelfth round", |walk| {
        walk.settles(AMEND) && walk.is.rounds.len() > 12
    }),
    ("a counter settles past the twelfth round", |walk| {
        walk.settles(COUNTER) && walk.is.rounds.len() > 12
    }),
    ("a sixteenth round is added", |walk| walk.adds_round() && walk.comes_after(15)),
    ("a seventeenth round is refused", |walk| walk.refused_after(16)),
];

/// Where the last installment carries what the others leave.
const ON_SUMS: [Path; 7] = [
    ("an installment before the last is partly paid", |walk| {
        walk.repays(|repaid, row, sums| {
            let paid = sums.iter().take_while(|sum| repaid >= **sum).last().copied();
            let others = &sums[..row.count as usize - 1];
            repaid > paid.unwrap_or(0) && others.last().is_some_and(|sum| repaid < *sum)
        })
    }),
    ("all but the last installment are paid", |walk| {
        walk.repays(|repaid, row, sums| row.count > 1 && repaid == sums[row.count as usize - 2])
    }),
    ("only what the others leave is owed on the last installment", |walk| {
        walk.repays(|repaid, row, sums| {
            let all_alike = row.count as i64 * row.installment;
            (all_alike..sums[row.count as usize - 1]).contains(&repaid)
        })
    }),
    ("one is owed on the last installment", |walk| {
        walk.repays(|repaid, row, sums| repaid + 1 == sums[row.count as usize - 1])
    }),
    ("the total is repaid", |walk| {
        walk.repays(|repaid, row, sums| repaid == sums[row.count as usize - 1])
    }),
    ("an amendment parts from the terms that a schedule keeps", |walk| {
        walk.accepted(AMEND) && walk.parts_from_kept()
    }),
    ("an amount is repaid on a schedule of earlier terms", |walk| {
        walk.repays(|_, _, _| true) && walk.parts_from_kept()
    }),
];

/// Where there are kinds of schedules.
const ON_KINDS: [Path; 15] = [
    ("a flat schedule is made", |walk| walk.makes(FLAT)),
    ("a falling schedule is made", |walk| walk.makes(FALLING)),
    ("a falling schedule replaces a flat one", |walk| walk.replaces(FLAT, FALLING)),
    ("a flat schedule replaces a falling one", |walk| walk.replaces(FALLING, FLAT)),
    ("an unknown kind is refused", |walk| walk.refused_kind() && walk.takes_schedule()),
    ("an unknown kind that is a listed one in 32 bits is refused", |walk| {
        let cut = walk.kind() & 0xFFFF_FFFF;
        walk.refused_kind() && walk.takes_schedule() && is_kind(cut)
    }),
    ("an unknown kind is refused for it, not for the offer or the caller", |walk| {
        walk.refused_kind() && !walk.takes_schedule()
    }),
    ("a falling schedule of less than one an installment is refused", |walk| {
        let asks = walk.asks_schedule() && walk.takes_schedule();
        asks && walk.repays_principal(0) && walk.answer == 3
    }),
    ("a falling schedule of just one an installment is made", |walk| {
        walk.makes(FALLING) && walk.repays_principal(1)
    }),
    ("a falling installment before the last is partly paid", |walk| {
        walk.repays_falling(|repaid, row, sums| {
            let others = &sums[..row.count as usize - 1];
            others.last().is_some_and(|sum| repaid < *sum) && !others.contains(&repaid)
        })
    }),
    ("a falling installment is paid by its sum, not by so many first ones", |walk| {
        walk.repays_falling(|repaid, row, sums| {
            let paid = sums.iter().take_while(|sum| repaid >= **sum).count() as i64;
            repaid < paid * row.installment && paid < row.count as i64
        })
    }),
    ("all but the last falling installment are paid", |walk| {
        walk.repays_falling(|repaid, row, sums| {
            row.count > 1 && repaid == sums[row.count as usize - 2]
        })
    }),
    ("one is owed on a falling installment before the last", |walk| {
        walk.repays_falling(|repaid, row, sums| {
            sums[..row.count as usize - 1].contains(&(repaid + 1))
        })
    }),
    ("only the rest of the principal is owed on the last falling installment", |walk| {
        walk.repays_falling(|repaid, row, sums| {
            let total = sums[row.count as usize - 1];
            (total - row.amount % row.count as i64..total).contains(&repaid)
        })
    }),
    ("the total of a falling schedule is repaid", |walk| {
        walk.repays_falling(|repaid, row, sums| repaid == sums[row.count as usize - 1])
    }),
];

/// Where the amount is held to the invoice's.
const ON_AMOUNTS: [Path; 11] = [
    ("an amendment above the invoice's amount is refused", |walk| walk.refused_above(AMEND)),
    ("a counter above the invoice's amount is refused", |walk| walk.refused_above(COUNTER)),
    ("an amendment is refused for its missing invoice", |walk| {
        let missing = walk.reaches_amount(AMEND) && walk.invoice.is_none();
        missing && !walk.agrees() && walk.answer == 4
    }),
    ("an amendment one above the invoice's amount is refused", |walk| {
        walk.refused_above(AMEND) && walk.above() == 1
    }),
    ("a counter one above the invoice's amount is refused", |walk| {
        walk.refused_above(COUNTER) && walk.above() == 1
    }),
    ("an amendment at the invoice's amount is accepted", |walk| {
        walk.accepted(AMEND) && walk.is_invoiced()
    }),
    ("a counter at the invoice's amount is accepted", |walk| {
        walk.accepted(COUNTER) && walk.is_invoiced()
    }),
    (
        "an amendment above the invoice's amount is refused for it, not for the negotiation",
        |walk| walk.refused_above(AMEND) && walk.is_late(),
    ),
    ("a counter above the invoice's amount is refused for it, not for the negotiation", |walk| {
        walk.refused_above(COUNTER) && walk.is_late()
    }),
    ("an amendment above the invoice's amount is refused for its caller", |walk| {
        walk.tag == AMEND && walk.above() > 0 && walk.answer == 6
    }),
    ("a counter above the invoice's amount is refused for its caller", |walk| {
        walk.tag == COUNTER && walk.above() > 0 && walk.answer == 6
    }),
];

const FULL: &str = "a table of 64 rows refuses a row";
const BACK: &str = "a command is accepted at an earlier time than the one before it";

fn on_offers(edition: u64) -> impl Iterator<Item = &'static Path> {
    let on_amounts: &[Path] = if holds_amount(edition) { &ON_AMOUNTS } else { &[] };
    let on_rounds: &[Path] = if most_rounds(edition) > 12 { &ON_MORE_ROUNDS } else { &[] };
    let on_sums: &[Path] = if keeps_terms(edition) { &ON_SUMS } else { &[] };
    let on_kinds: &[Path] = if has_kinds(edition) { &ON_KINDS } else { &[] };
    ON_OFFERS.iter().chain(on_amounts).chain(on_rounds).chain(on_sums).chain(on_kinds)
}

/// The paths that are to be walked in an edition.
pub(super) fn names(edition: u64) -> impl Iterator<Item = &'static str> {
    on_offers(edition).map(|(name, _)| *name).chain([FULL, BACK])
}

/// The paths that an answered command walked, from the books before and after it.
pub(super) fn walked(
    command: &Command,
    answer: u64,
    time_before: u64,
    books: [&Book; 2],
) -> Vec<&'static str> {
    let (tag, numbers) = command.numbers();
    let offer = |book: &'_ Book| book.offers.iter().position(|offer| offer.id == numbers[0x03]);
    let (mut walked, edition) = (Vec::new(), books[0].edition);
    if let (Some(was), Some(is)) = (offer(books[0]), offer(books[1])) {
        let (was, is) = (&books[0].offers[was], &books[1].offers[is]);
        let invoice = books[0].invoices.iter().find(|row| row.id == was.invoice);
        let most_rounds = most_rounds(edition);
        let walk = Walk { tag, numbers, answer, was, is, invoice, most_rounds };
        let paths = on_offers(edition).filter(|(_, path)| path(&walk));
        walked.extend(paths.map(|(name, _)| *name));
    }
    walked.extend((answer == 12).then_some(FULL));
    walked.extend((answer == 0 && command.now() < time_before).then_some(BACK));
    walked
}
