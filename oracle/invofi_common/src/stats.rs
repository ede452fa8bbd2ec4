//! The running totals, held to document 01's ranges wherever they are stored.

use soroban_sdk::Stored;

use crate::{MOST_COUNT, MOST_MONEY, OUT_OF_RANGE};

#[derive(Clone, Copy, Debug, Default, PartialEq)]
pub struct LenderStats {
    pub total_offered: i128,
    pub total_accepted: i128,
    pub offers_pending: u32,
    pub offers_repaid: u32,
}

#[derive(Clone, Copy, Debug, Default, PartialEq)]
pub struct ProtocolStats {
    pub total_invoices: u32,
    pub total_offers: u32,
    pub total_financed: i128,
    pub total_repaid: i128,
    pub total_fee_revenue: i128,
}

fn range(money: &[i128], counts: &[u32]) -> Option<u32> {
    let money_lies = money.iter().all(|total| (0..=MOST_MONEY).contains(total));
    let counts_lie = counts.iter().all(|count| *count <= MOST_COUNT);
    (!money_lies || !counts_lie).then_some(OUT_OF_RANGE)
}

impl Stored for LenderStats {
    fn refusal(&self) -> Option<u32> {
        let money = [self.total_offered, self.total_accepted];
        range(&money, &[self.offers_pending, self.offers_repaid])
    }
}

impl Stored for ProtocolStats {
    fn refusal(&self) -> Option<u32> {
        let money = [self.total_financed, self.total_repaid, self.total_fee_revenue];
        range(&money, &[self.total_offers])
    }
}
