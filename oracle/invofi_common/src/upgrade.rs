//! Versions and upgrades are left behind: enough stands here for the text to compile and start.

use soroban_sdk::{symbol_short, BytesN, Env, String};

pub fn initialize_contract_version(env: &Env, version: &str) {
    commit_rollback(env, &String::from_str(env, version));
}

pub fn contract_version(env: &Env) -> String {
    let version = env.storage().instance().get(&symbol_short!("version"));
    version.unwrap_or_else(|| panic!("Not initialized"))
}

pub fn begin_upgrade(_env: &Env, _present: &BytesN<32>, _next: &BytesN<32>, _version: &String) {
    unreachable!("no journal upgrades");
}

pub fn complete_upgrade(_env: &Env) {
    unreachable!("no journal upgrades");
}

pub fn rollback_target(_env: &Env) -> (BytesN<32>, String) {
    unreachable!("no journal upgrades")
}

pub fn commit_rollback(env: &Env, version: &String) {
    env.storage().instance().set(&symbol_short!("version"), version);
}
