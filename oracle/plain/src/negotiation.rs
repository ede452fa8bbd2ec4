//! Module 3: the negotiation of one offer.

use side::{Offer, Round};

use crate::terms::Terms;
use crate::{test, Test};

pub const NONE: u64 = 0;
pub const OPEN: u64 = 1;
pub const CLOSED: u64 = 2;
pub const ACCEPTED: u64 = 3;
pub const EXPIRED: u64 = 4;

pub const LENDER: u64 = 0;
pub const ORIGINATOR: u64 = 1;

pub const PENDING: u64 = 0;

/// A stored outcome wins; no rounds gives None; a non-Pending offer gives Closed; past the
/// deadline Expired, else Open.
pub fn status(offer: &Offer, now: u64) -> u64 {
    if offer.outcome != 0 {
        offer.outcome
    } else if offer.rounds.is_empty() {
        NONE
    } else if offer.status != PENDING {
        CLOSED
    } else if now > offer.deadline {
        EXPIRED
    } else {
        OPEN
    }
}

pub fn negotiable(offer: &Offer, now: u64, expected: u32, most_rounds: usize) -> Test {
    test(offer.status == PENDING, 7)?;
    test([NONE, OPEN].contains(&status(offer, now)), 7)?;
    test(offer.rounds.len() as u64 == u64::from(expected), 3)?;
    test(offer.rounds.len() < most_rounds, 7)
}

/// Adds a round; the first one sets the deadline, now + window, stopped at 2^64−1.
pub fn add_round(offer: &mut Offer, party: u64, terms: &Terms, now: u64, window: u64, moves: bool) {
    if offer.rounds.is_empty() || moves {
        offer.deadline = now.saturating_add(window);
    }
    let Terms { amount, rate, duration } = *terms;
    offer.rounds.push(Round { party, amount, rate, duration, time: now });
}

pub fn round_terms(round: &Round) -> Terms {
    Terms { amount: round.amount, rate: round.rate, duration: round.duration }
}

pub fn offer_terms(offer: &Offer) -> Terms {
    Terms { amount: offer.amount, rate: offer.rate, duration: offer.duration }
}

/// Whether the originator's latest round has these terms; under the slip, whether any has.
pub fn countered(offer: &Offer, terms: &Terms, any: bool) -> bool {
    let mut counters = offer.rounds.iter().rev().filter(|round| round.party == ORIGINATOR);
    if any {
        counters.any(|round| round_terms(round) == *terms)
    } else {
        counters.next().is_some_and(|round| round_terms(round) == *terms)
    }
}

#[cfg(test)]
mod tests {
    use super::*;

    #[test]
    fn the_deadline_is_open_and_one_later_is_not() {
        let mut offer = Offer::default();
        let terms = Terms { amount: 1, rate: 1, duration: 86_400 };
        add_round(&mut offer, LENDER, &terms, 100, 604_800, false);
        assert_eq!(offer.deadline, 604_900);
        assert_eq!((status(&offer, 604_900), status(&offer, 604_901)), (OPEN, EXPIRED));
    }
}
