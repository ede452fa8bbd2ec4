//! Offers, their negotiation and their schedule, with document 01's codes.

use soroban_sdk::{Address, Stored, Symbol};

use crate::MOST_ROWS;

#[derive(Clone, Copy, Debug, PartialEq, Eq)]
pub enum OfferStatus {
    Pending = 0,
    Accepted = 1,
    Rejected = 2,
    Financed = 3,
    Repaid = 4,
    Defaulted = 5,
}

impl OfferStatus {
    pub fn of_code(code: u64) -> Option<OfferStatus> {
        use OfferStatus::*;
        let listed = [Pending, Accepted, Rejected, Financed, Repaid, Defaulted];
        listed.into_iter().find(|status| *status as u64 == code)
    }
}

#[derive(Clone, Copy, PartialEq)]
pub struct FinancingOffer {
    pub id: Symbol,
    pub invoice_id: Symbol,
    pub lender: Address,
    pub amount: i128,
    pub currency: Symbol,
    pub interest_rate: u32,
    pub duration: u64,
    pub expires_at: u64,
    pub status: OfferStatus,
    pub funded_at: u64,
    pub amount_repaid: i128,
}

impl Stored for FinancingOffer {
    const ROWS: u32 = MOST_ROWS;
}

#[derive(Clone, Copy, Debug, PartialEq, Eq)]
pub enum NegotiationParty {
    Lender = 0,
    Originator = 1,
}

#[derive(Clone, Copy, Debug, PartialEq)]
pub struct NegotiationRecord {
    pub party: NegotiationParty,
    pub amount: i128,
    pub interest_rate: u32,
    pub duration: u64,
    pub timestamp: u64,
}

impl Stored for NegotiationRecord {}

#[derive(Clone, Copy, Debug, PartialEq, Eq)]
pub enum NegotiationStatus {
    None = 0,
    Open = 1,
    Closed = 2,
    Accepted = 3,
    Expired = 4,
}

impl Stored for NegotiationStatus {}

impl NegotiationStatus {
    /// A stored outcome is Closed, Accepted or Expired.
    pub fn of_outcome(code: u64) -> Option<NegotiationStatus> {
        use NegotiationStatus::*;
        [Closed, Accepted, Expired].into_iter().find(|status| *status as u64 == code)
    }
}

#[derive(Clone, Copy, Debug, PartialEq, Eq)]
pub enum ScheduleFrequency {
    Weekly = 1,
    Fortnightly = 2,
    ThirtyDays = 3,
}

impl ScheduleFrequency {
    pub fn of_code(code: u64) -> Option<ScheduleFrequency> {
        use ScheduleFrequency::*;
        [Weekly, Fortnightly, ThirtyDays].into_iter().find(|listed| *listed as u64 == code)
    }

    pub fn period_secs(&self) -> u64 {
        match self {
            ScheduleFrequency::Weekly => 604_800,
            ScheduleFrequency::Fortnightly => 1_209_600,
            ScheduleFrequency::ThirtyDays => 2_592_000,
        }
    }
}

#[derive(Clone, Copy, PartialEq)]
pub struct RepaymentSchedule {
    pub offer_id: Symbol,
    pub count: u32,
    pub frequency: ScheduleFrequency,
    pub installment_amount: i128,
    pub first_due: u64,
}

impl Stored for RepaymentSchedule {}
