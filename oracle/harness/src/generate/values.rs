//! Times, ids, figures and rows to put into commands.

use plain::edition::most_rounds;
use side::{Book, Offer};

use super::{Generator, DAY, TRILLION, YEAR};

impl Generator {
    /// The time of a command: mostly a little later, sometimes at an edge of the offer's, earlier,
    /// or at an end of time. Only the first moves the clock for good, and edges now and then.
    pub(super) fn time(&mut self, offer: Option<&Offer>) -> u64 {
        match self.chance.below(100) {
            0..70 => {
                self.clock = self.clock.saturating_add(self.chance.below(self.plan.tick));
                self.clock
            }
            70..80 => self.clock,
            80..92 => self.edge(offer),
            92..96 => self.chance.below(self.clock.saturating_add(1)),
            _ => self.chance.pick(&[0, 1, u64::MAX, u64::MAX - 1, u64::MAX - 604_800, 1 << 63]),
        }
    }

    fn edge(&mut self, offer: Option<&Offer>) -> u64 {
        let Some(offer) = offer else { return self.clock };
        let first = offer.schedule.map_or(0, |schedule| schedule.first);
        let edge = self.chance.pick(&[offer.deadline, offer.deadline, offer.expires, first]);
        let time = self.beside(edge);
        if time > self.clock && time - self.clock < YEAR && self.chance.percent(30) {
            self.clock = time;
        }
        time
    }

    pub(super) fn beside(&mut self, edge: u64) -> u64 {
        match self.chance.below(3) {
            0 => edge.saturating_sub(1),
            1 => edge,
            _ => edge.saturating_add(1),
        }
    }

    /// A new id: small, so that ids meet, or an end of the range, or any.
    pub(super) fn new_id(&mut self) -> u64 {
        match self.chance.below(10) {
            0 => self.chance.pick(&[0, u64::MAX]),
            1 => self.chance.number(),
            _ => self.chance.within(1, self.plan.ids),
        }
    }

    pub(super) fn any_account(&mut self, book: &Book) -> u64 {
        match book.accounts.len() as u64 {
            0 => self.new_id(),
            rows => book.accounts[self.chance.below(rows) as usize].id,
        }
    }

    pub(super) fn amount(&mut self) -> i64 {
        match self.chance.below(20) {
            0 => self.chance.pick(&[1, 2, TRILLION, TRILLION - 1]) as i64,
            _ => self.chance.within(1, self.plan.amounts) as i64,
        }
    }

    pub(super) fn rate(&mut self) -> u32 {
        match self.chance.below(6) {
            0 => self.chance.pick(&[1, 10_000]),
            _ => self.chance.within(1, 10_000) as u32,
        }
    }

    pub(super) fn duration(&mut self) -> u64 {
        match self.chance.below(6) {
            0 => self.chance.pick(&[DAY, YEAR]),
            _ => self.chance.within(DAY, YEAR),
        }
    }

    /// Whether rounds may still be added at the present time.
    pub(super) fn is_open(&self, book: &Book, offer: &Offer) -> bool {
        let running = offer.rounds.is_empty() || self.clock <= offer.deadline;
        let room = offer.rounds.len() < most_rounds(book.edition);
        offer.status == 0 && offer.outcome == 0 && running && room
    }

    /// The offer that this command is about: the focus, or any, preferring those in negotiation.
    pub(super) fn offer<'a>(&mut self, book: &'a Book) -> Option<&'a Offer> {
        let running = book.offers.iter().filter(|offer| self.is_open(book, offer));
        let running: Vec<_> = running.collect();
        let focus = running.iter().copied().find(|offer| offer.id == self.focus);
        if focus.is_some() && self.chance.percent(70) {
            return focus;
        }
        if !running.is_empty() && self.chance.percent(80) {
            let chosen = self.chance.pick(&running);
            self.focus = chosen.id;
            return Some(chosen);
        }
        self.any_offer(book)
    }

    /// The offer that this command is about; a round mostly goes on with a long negotiation.
    pub(super) fn chosen<'a>(&mut self, tag: u8, book: &'a Book) -> Option<&'a Offer> {
        let long = self.long(book).filter(|_| [0x35, 0x36].contains(&tag));
        match long {
            Some(offer) if self.chance.percent(75) => Some(offer),
            _ => self.offer(book),
        }
    }

    /// Where more than twelve rounds may be added, an offer that has some and may settle.
    pub(super) fn long<'a>(&self, book: &'a Book) -> Option<&'a Offer> {
        let longer = most_rounds(book.edition) > 12;
        let mut offers = book.offers.iter().filter(|offer| longer && offer.rounds.len() > 4);
        offers.find(|offer| self.may_settle(book, offer))
    }

    /// Whether the offer is open, not expired, and its invoice Pending.
    fn may_settle(&self, book: &Book, offer: &Offer) -> bool {
        let mut invoices = book.invoices.iter();
        let pending = invoices.any(|row| row.id == offer.invoice && row.status == 0);
        let expired = offer.expires != 0 && offer.expires <= self.clock;
        self.is_open(book, offer) && pending && !expired
    }

    pub(super) fn any_offer<'a>(&mut self, book: &'a Book) -> Option<&'a Offer> {
        let rows = book.offers.len() as u64;
        (rows > 0).then(|| &book.offers[self.chance.below(rows) as usize])
    }

    pub(super) fn originator(&mut self, book: &Book, offer: &Offer) -> u64 {
        let invoice = book.invoices.iter().find(|invoice| invoice.id == offer.invoice);
        invoice.map_or_else(|| self.any_account(book), |invoice| invoice.originator)
    }

    /// Seats that pass, mostly: all the configured ones, some with bits that count for nothing.
    pub(super) fn seats(&mut self, book: &Book) -> u64 {
        match self.chance.below(10) {
            0 => self.chance.number(),
            1 => book.seats & self.chance.number(),
            2 => book.seats | self.chance.number() << 32,
            _ => book.seats,
        }
    }
}
