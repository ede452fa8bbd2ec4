//! Addresses: the parties' accounts, the administrators' seats and the contracts.

use std::cell::Cell;

use crate::env::{refuse, By};

#[derive(Clone, Copy, Debug, PartialEq, Eq, PartialOrd, Ord, Hash)]
pub struct Address {
    kind: Kind,
    number: u64,
}

#[derive(Clone, Copy, Debug, PartialEq, Eq, PartialOrd, Ord, Hash)]
enum Kind {
    Account,
    Seat,
    Contract,
}

thread_local! {
    // Who signed the present call: `require_auth` is handed the address alone.
    static SIGNER: Cell<Option<Address>> = const { Cell::new(None) };
}

/// What a refused `require_auth` is in document 01's numbers. The host gives it no code.
const UNAUTHORIZED: u32 = 6;

impl Address {
    pub const FINANCING: Address = Address::contract(0);
    pub const REGISTRY: Address = Address::contract(1);
    pub const TOKEN: Address = Address::contract(2);

    pub const fn account(number: u64) -> Address {
        Address { kind: Kind::Account, number }
    }

    pub const fn seat(number: u64) -> Address {
        Address { kind: Kind::Seat, number }
    }

    const fn contract(number: u64) -> Address {
        Address { kind: Kind::Contract, number }
    }

    /// The number of an account, seat or contract among its own kind.
    pub const fn number(self) -> u64 {
        self.number
    }

    pub const fn is_seat(self) -> bool {
        matches!(self.kind, Kind::Seat)
    }

    pub(crate) const fn packed(self) -> u128 {
        (self.kind as u128) << 64 | self.number as u128
    }

    #[track_caller]
    pub fn require_auth(&self) {
        if SIGNER.get() != Some(*self) {
            refuse(By::Other, UNAUTHORIZED);
        }
    }
}

pub(crate) fn set_signer(signer: Option<Address>) {
    SIGNER.set(signer);
}
