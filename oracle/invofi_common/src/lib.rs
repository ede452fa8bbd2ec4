//! A stand-in for the shared module, which the published text imports and does not hold. Its
//! constants, types and checks are document 01's port values.

mod admin;
mod offers;
mod registry;
mod stats;
mod upgrade;

pub use admin::{
    assert_not_paused, assert_threshold, init_admin_config, load_admin_config, save_admin_config,
    validate_signers, AdminConfig,
};
pub use offers::{
    FinancingOffer, NegotiationParty, NegotiationRecord, NegotiationStatus, OfferStatus,
    RepaymentSchedule, ScheduleFrequency,
};
pub use registry::{Invoice, InvoiceStatus, Registry, RegistryClient};
pub use stats::{LenderStats, ProtocolStats};
pub use upgrade::{
    begin_upgrade, commit_rollback, complete_upgrade, contract_version,
    initialize_contract_version, rollback_target,
};

use soroban_sdk::{symbol_short, Address, Env, Symbol};

pub const MAX_INTEREST_BPS: u32 = 10_000;
pub const MIN_OFFER_DURATION_SECS: u64 = 86_400;
pub const MAX_OFFER_DURATION_SECS: u64 = 31_536_000;
pub const MAX_NEGOTIATION_ROUNDS: u32 = 12;
pub const DEFAULT_NEGOTIATION_WINDOW_SECS: u64 = 604_800;
pub const MIN_NEGOTIATION_WINDOW_SECS: u64 = 3_600;
pub const MAX_NEGOTIATION_WINDOW_SECS: u64 = 2_592_000;

/// How many invoices, and how many offers, a book holds.
pub const MOST_ROWS: u32 = 64;
/// The greatest balance, allowance, total or amount repaid.
pub const MOST_MONEY: i128 = 4_000_000_000_000_000;
/// The greatest stored count.
pub const MOST_COUNT: u32 = 1_000_000;

/// The codes of the contracts, as document 01 numbers them.
#[derive(Clone, Copy, Debug, PartialEq, Eq)]
pub enum ContractError {
    Paused = 1,
    Blacklisted = 2,
    InvalidInput = 3,
    NotFound = 4,
    AlreadyExists = 5,
    Unauthorized = 6,
    InvalidTransition = 7,
    OfferExpired = 8,
}

impl From<ContractError> for u32 {
    fn from(error: ContractError) -> u32 {
        error as u32
    }
}

const OUT_OF_RANGE: u32 = 11;

/// Currencies are left behind: one token serves every offer.
pub fn resolve_token(env: &Env, _currency: &Symbol) -> Address {
    let token = env.storage().instance().get(&symbol_short!("token"));
    token.unwrap_or_else(|| panic!("Not initialized"))
}

pub fn register_currency(env: &Env, currency: &Symbol, token: &Address) {
    let key = (symbol_short!("currency"), *currency);
    env.storage().persistent().set(&key, token);
}

pub fn get_currency_token(env: &Env, currency: &Symbol) -> Option<Address> {
    let key = (symbol_short!("currency"), *currency);
    env.storage().persistent().get(&key)
}
