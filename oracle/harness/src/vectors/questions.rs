//! The questions beside a journal of the sample: some of each kind, about rows that the book has and
//! rows that it has not, at the times where answers change.

use std::collections::BTreeSet;

use plain::edition::keeps_terms;
use side::{Book, Offer};

use crate::chance::Chance;
use crate::pair::wide_quotient;
use crate::questions::paid;

/// Journals beside the session, the scripts and the generator's that are asked.
const ASKED_TOO: [&str; 12] = [
    "header-alone",
    "header-empty",
    "header-tag",
    "malformed-tag-00",
    "malformed-one-byte",
    "malformed-cut",
    "malformed-empty",
    "malformed-missing",
    "malformed-nine",
    "malformed-rate",
    "fits-round",
    "size-32768",
];

/// Of so many offers it is asked what is owed in the end, where an installment is paid by its sum.
const MOST_OWED: usize = 12;

/// Whether questions stand beside the journal of this name.
pub(super) fn is_asked(name: &str) -> bool {
    let script = name.starts_with(|first: char| first.is_ascii_digit());
    script || name.starts_with("generated") || name == "session" || ASKED_TOO.contains(&name)
}

/// Lines of questions about a book, at a time and around the times that it holds.
pub(super) fn questions(book: &Book, now: u64, chance: &mut Chance) -> String {
    let mut asking = Asking { book, now, chance, lines: Vec::new() };
    asking.settings();
    asking.lists();
    asking.holders();
    asking.invoices();
    asking.offers();
    asking.statuses();
    asking.dues();
    asking.mixed()
}

struct Asking<'a> {
    book: &'a Book,
    now: u64,
    chance: &'a mut Chance,
    lines: Vec<String>,
}

impl Asking<'_> {
    fn ask(&mut self, name: &str, numbers: &[u64]) {
        let numbers = numbers.iter().map(|number| format!(" {number}"));
        self.lines.push(format!("{name}{}", numbers.collect::<String>()));
    }

    /// Asks so many of these kinds about one id.
    fn ask_some(&mut self, kinds: &[&str], most: usize, id: u64) {
        for kind in self.some(kinds, most) {
            self.ask(kind, &[id]);
        }
    }

    /// So many of these, in no order.
    fn some<T: Clone>(&mut self, all: &[T], most: usize) -> Vec<T> {
        let mut left = all.to_vec();
        let picked = most.min(left.len());
        (0..picked)
            .map(|_| left.swap_remove(self.chance.below(left.len() as u64) as usize))
            .collect()
    }

    /// An id that is none of these: an end of the range, or a neighbour of one of them.
    fn absent(&mut self, ids: &[u64]) -> u64 {
        let mut others = vec![0, 7, u64::MAX];
        others.extend(ids.iter().flat_map(|id| [id.saturating_sub(1), id.saturating_add(1)]));
        others.retain(|id| !ids.contains(id));
        self.chance.pick(&others)
    }

    fn settings(&mut self) {
        let all = ["count", "window", "seats", "threshold", "paused", "totals"];
        for kind in self.some(&all, 3) {
            self.ask(kind, &[]);
        }
    }

    fn lists(&mut self) {
        let rows = self.book.offers.len() as u64;
        let pages = [(0, rows.min(5)), (rows / 2, 2), (rows.saturating_sub(1), u64::MAX)];
        let past = [(rows, 1), (1, 0), (1 << 32, 1), (u64::MAX, u64::MAX)];
        self.ask("all-offers", &[]);
        for (offset, limit) in [self.some(&pages, 2), self.some(&past, 1)].concat() {
            self.ask("page", &[offset, limit]);
        }
        let held: BTreeSet<_> = self.book.offers.iter().map(|offer| offer.status).collect();
        let held: Vec<_> = held.into_iter().collect();
        let others = [0, 1, 2, 3, 4, 5, 6, 6, 1 << 32, u64::MAX];
        for code in [self.some(&held, 1), self.some(&others, 2)].concat() {
            self.ask("offers-by-status", &[code]);
        }
    }

    fn holders(&mut self) {
        let ids: Vec<_> = self.book.accounts.iter().map(|account| account.id).collect();
        let kinds = ["account", "lender", "active", "offers-by-lender"];
        let lenders: Vec<_> = self.book.offers.iter().map(|offer| offer.lender).collect();
        for id in self.some(&lenders, 1) {
            self.ask_some(&kinds, 3, id);
        }
        for id in self.some(&ids, 1) {
            self.ask_some(&kinds, 2, id);
        }
        let id = self.absent(&ids);
        self.ask_some(&kinds, 1, id);
    }

    fn invoices(&mut self) {
        let ids: Vec<_> = self.book.invoices.iter().map(|invoice| invoice.id).collect();
        let kinds = ["offers-by-invoice", "pending-offers"];
        for id in self.some(&ids, 1) {
            self.ask_some(&kinds, 1, id);
        }
        let offered: Vec<_> = self.book.offers.iter().map(|offer| offer.invoice).collect();
        for id in self.some(&offered, 1) {
            self.ask_some(&kinds, 2, id);
        }
        let id = self.absent(&ids);
        self.ask_some(&kinds, 1, id);
    }

    fn offers(&mut self) {
        let kinds = ["offer", "schedule", "negotiation"];
        let (rounds, schedules) = (self.with_rounds(), self.with_schedule());
        for (offer, kind) in [(rounds.first(), kinds[2]), (schedules.first(), kinds[1])] {
            offer.into_iter().for_each(|offer| self.ask(kind, &[offer.id]));
        }
        for offer in self.some(&self.book.offers, 1) {
            self.ask_some(&kinds, 3, offer.id);
        }
        let id = self.absent_offer();
        self.ask_some(&kinds, 1, id);
    }

    fn absent_offer(&mut self) -> u64 {
        let ids: Vec<_> = self.book.offers.iter().map(|offer| offer.id).collect();
        self.absent(&ids)
    }

    /// One offer of the wanted ones, if any, and so many of the others.
    fn one_and(
        &mut self,
        all: Vec<Offer>,
        wanted: fn(&Offer) -> bool,
        others: usize,
    ) -> Vec<Offer> {
        let (best, rest): (Vec<_>, Vec<_>) = all.into_iter().partition(wanted);
        let first = self.some(&best, 1);
        let left = best.into_iter().filter(|offer| !first.contains(offer)).chain(rest);
        let others = self.some(&left.collect::<Vec<_>>(), others);
        [first, others].concat()
    }

    /// Offers that negotiate or did, one that is undecided before others.
    fn with_rounds(&mut self) -> Vec<Offer> {
        let offers = self.book.offers.iter().filter(|offer| !offer.rounds.is_empty());
        let undecided = |offer: &Offer| offer.outcome == 0 && offer.status == 0;
        self.one_and(offers.cloned().collect(), undecided, 1)
    }

    /// Offers with a schedule that the original and the port read alike, one that is partly paid
    /// before others.
    fn with_schedule(&mut self) -> Vec<Offer> {
        let offers = self.book.offers.iter().filter(|offer| offer.schedule.is_some());
        let offers = offers.filter(|offer| !wide_quotient(offer)).cloned().collect();
        self.one_and(offers, |offer| offer.repaid > 0 && offer.status < 4, 2)
    }

    fn statuses(&mut self) {
        let kind = "negotiation-status";
        for offer in self.with_rounds() {
            let after = offer.deadline.saturating_add(1);
            self.ask(kind, &[offer.id, offer.deadline]);
            self.ask(kind, &[offer.id, after]);
            let others = [offer.deadline.saturating_sub(1), self.now, 0, u64::MAX];
            let other = self.chance.pick(&others);
            self.ask(kind, &[offer.id, other]);
        }
        for offer in self.some(&self.book.offers, 1) {
            self.ask(kind, &[offer.id, self.now]);
        }
        let id = self.absent_offer();
        self.ask(kind, &[id, self.now]);
    }

    fn dues(&mut self) {
        let offers = self.with_schedule();
        for offer in &offers {
            let (next, others) = due_times(offer, self.book.edition);
            let others = self.some(&others, 2 / offers.len());
            for time in [next].into_iter().chain(others) {
                self.ask("due", &[offer.id, time.saturating_sub(1)]);
                self.ask("due", &[offer.id, time]);
            }
            let other = self.chance.pick(&[self.now, u64::MAX]);
            self.ask("due", &[offer.id, other]);
        }
        if keeps_terms(self.book.edition) {
            let offers = self.book.offers.iter().filter(|offer| offer.schedule.is_some());
            offers.take(MOST_OWED).for_each(|offer| self.ask("due", &[offer.id, u64::MAX]));
        }
        let offers: Vec<_> = self.book.offers.iter().filter(|row| row.schedule.is_none()).collect();
        let without = self.some(&offers, 1).first().map(|offer| offer.id);
        let id = without.unwrap_or_else(|| self.absent_offer());
        self.ask("due", &[id, u64::MAX]);
    }

    /// Each line once, in no order.
    fn mixed(&mut self) -> String {
        let lines: BTreeSet<_> = self.lines.drain(..).collect();
        let lines: Vec<_> = lines.into_iter().collect();
        let lines = self.some(&lines, lines.len());
        lines.iter().map(|line| format!("{line}\n")).collect()
    }
}

/// The times where an offer's due changes: when the first installment that is not paid falls due;
/// its first due, the next and the last.
fn due_times(offer: &Offer, edition: u64) -> (u64, [u64; 3]) {
    let Some(schedule) = offer.schedule else { return (0, [0; 3]) };
    let period = [0, 604_800, 1_209_600, 2_592_000][schedule.code as usize];
    let paid = paid(&schedule, offer.repaid, edition);
    let falls = |number: u64| schedule.first.saturating_add(period * number);
    let last = schedule.count.saturating_sub(1);
    (falls(paid.min(schedule.count)), [0, 1, last].map(falls))
}
