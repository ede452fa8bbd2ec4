//! The character of one book's commands.

use crate::chance::Chance;

/// The character of one book's commands.
#[derive(Clone, Debug)]
pub struct Plan {
    pub length: u64,
    /// How many rows of each table are aimed at.
    pub accounts: usize,
    pub invoices: usize,
    pub offers: usize,
    /// New ids are mostly small, from 1 to here, so that they meet.
    pub ids: u64,
    /// How many commands in a hundred have one field spoiled.
    pub spoiled: u64,
    /// How many rounds in a hundred aim at agreement.
    pub agreeing: u64,
    /// Usual amounts lie from 1 to here.
    pub amounts: u64,
    /// How many usual amounts a deposit or an approval is.
    pub wealth: i64,
    pub clock: u64,
    /// The clock's usual step lies below this.
    pub tick: u64,
}

impl Plan {
    pub fn new(chance: &mut Chance) -> Plan {
        let many = chance.percent(8);
        let amounts = chance.pick(&[50, 3_000, 3_000, 3_000, 1_000_000, 1_000_000_000_000]);
        let late = chance.percent(10);
        Plan {
            length: if many { 700 } else { chance.within(60, 400) },
            accounts: if many { 64 } else { chance.within(2, 6) as usize },
            invoices: if many { 64 } else { chance.within(1, 6) as usize },
            offers: if many { 64 } else { chance.within(1, 8) as usize },
            ids: if many { 300 } else { 90 },
            spoiled: chance.pick(&[3, 10, 10, 25]),
            agreeing: chance.pick(&[0, 5, 15, 40]),
            amounts,
            wealth: chance.pick(&[3, 50, 50]),
            clock: if late { u64::MAX - chance.below(3_000_000) } else { chance.below(1_000_000) },
            tick: chance.pick(&[2, 2_000, 2_000, 100_000]),
        }
    }
}
