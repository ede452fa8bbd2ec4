//! Pause and the administrators' seats (document 01, module 2).

use crate::ContractError;
use soroban_sdk::{symbol_short, Address, Env, Stored, Vec};

#[derive(Clone, Debug, PartialEq)]
pub struct AdminConfig {
    pub signers: Vec<Address>,
    pub threshold: u32,
}

impl Stored for AdminConfig {}

/// Seats lie in 32 bits.
const MOST_SEATS: u64 = 32;

#[track_caller]
pub fn assert_not_paused(env: &Env) {
    let paused = env.storage().instance().get(&symbol_short!("paused"));
    if paused.unwrap_or(false) {
        env.panic_with_error(ContractError::Paused);
    }
}

pub fn init_admin_config(env: &Env, admin: &Address) {
    let signers = Vec::from_rows([*admin].into());
    save_admin_config(env, &AdminConfig { signers, threshold: 1 });
}

pub fn load_admin_config(env: &Env) -> AdminConfig {
    let config = env.storage().instance().get(&symbol_short!("admins"));
    config.unwrap_or_else(|| panic!("Not initialized"))
}

pub fn save_admin_config(env: &Env, config: &AdminConfig) {
    env.storage().instance().set(&symbol_short!("admins"), config);
}

/// The seats that are both presented and configured reach the threshold.
#[track_caller]
pub fn assert_threshold(env: &Env, config: &AdminConfig, presented: &Vec<Address>) {
    let both = config.signers.iter().filter(|seat| presented.contains(seat));
    if (both.count() as u64) < u64::from(config.threshold) {
        env.panic_with_error(ContractError::Unauthorized);
    }
}

/// New seats lie in 32 bits, and the threshold is from 1 to their number.
#[track_caller]
pub fn validate_signers(env: &Env, signers: &Vec<Address>, threshold: u32) {
    let seats_lie = signers.iter().all(|seat| seat.is_seat() && seat.number() < MOST_SEATS);
    if !seats_lie || threshold == 0 || threshold > signers.len() {
        env.panic_with_error(ContractError::InvalidInput);
    }
}
