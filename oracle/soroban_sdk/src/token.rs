//! The settlement token: one purse for each opened account, and one spender, the contract.

use crate::env::{refuse, By};
use crate::{symbol_short, Address, Env, Shelf, Space, Stored, Symbol};

#[derive(Clone, Copy, Debug, Default, PartialEq)]
pub struct Purse {
    pub balance: i128,
    pub allowance: i128,
}

const MOST_HELD: i128 = 4_000_000_000_000_000;

const NOT_FOUND: u32 = 4;
const ALLOWANCE_SHORT: u32 = 9;
const BALANCE_SHORT: u32 = 10;
const OUT_OF_RANGE: u32 = 11;

impl Stored for Purse {
    fn refusal(&self) -> Option<u32> {
        let held = 0..=MOST_HELD;
        let in_range = held.contains(&self.balance) && held.contains(&self.allowance);
        (!in_range).then_some(OUT_OF_RANGE)
    }
}

fn key(holder: &Address) -> (Symbol, Address) {
    (symbol_short!("purse"), *holder)
}

fn shelf(env: &Env) -> Shelf<'_> {
    env.storage().shelf(Space::Token)
}

pub fn purse(env: &Env, holder: &Address) -> Option<Purse> {
    shelf(env).get(&key(holder))
}

pub fn set_purse(env: &Env, holder: &Address, purse: &Purse) {
    shelf(env).set(&key(holder), purse);
}

pub struct TokenClient<'a>(&'a Env);

impl<'a> TokenClient<'a> {
    pub fn new(env: &'a Env, _token: &Address) -> TokenClient<'a> {
        TokenClient(env)
    }

    #[track_caller]
    fn needed(&self, holder: &Address) -> Purse {
        match purse(self.0, holder) {
            Some(purse) => purse,
            None => refuse(By::Other, NOT_FOUND),
        }
    }

    /// Document 01, Settlement: allowance, balance, receiver; the debit before the credit.
    #[track_caller]
    pub fn transfer_from(&self, _spender: &Address, from: &Address, to: &Address, amount: &i128) {
        let mut payer = self.needed(from);
        if payer.allowance < *amount {
            refuse(By::Other, ALLOWANCE_SHORT);
        }
        if payer.balance < *amount {
            refuse(By::Other, BALANCE_SHORT);
        }
        payer.balance -= amount;
        payer.allowance -= amount;
        set_purse(self.0, from, &payer);
        let mut payee = self.needed(to);
        payee.balance += amount;
        set_purse(self.0, to, &payee);
    }
}

/// Position tokens are left behind. No journal configures one, so nothing calls this.
pub struct StellarAssetClient;

impl StellarAssetClient {
    pub fn new(_env: &Env, _token: &Address) -> StellarAssetClient {
        StellarAssetClient
    }

    pub fn mint(&self, _to: &Address, _amount: &i128) {
        unreachable!("no position token is ever configured");
    }
}
