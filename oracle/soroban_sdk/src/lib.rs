//! A stand-in for the contract SDK: what the original's text names, and no more.
//!
//! Values are typed Rust values. A map or a vector is a shared handle that is copied when it is
//! written, as the SDK's host objects are; storage hands out clones. A refusal unwinds, and
//! `Env::transaction` then puts the storage back as it was, as the chain does.

mod address;
mod collections;
mod env;
mod storage;
mod symbol;
pub mod token;

pub use address::Address;
pub use collections::{Map, Vec};
pub use env::{By, Deployer, Env, Events, Ledger, Outcome, Refusal, Stop};
pub use soroban_sdk_macros::{contract, contractimpl};
pub use storage::{Key, KeyParts, Shelf, Space, Storage, Stored};
pub use symbol::Symbol;

/// Text, such as a contract's version.
#[derive(Clone, Debug, PartialEq, Eq)]
pub struct String(std::rc::Rc<str>);

impl String {
    pub fn from_str(_env: &Env, text: &str) -> String {
        String(text.into())
    }
}

/// A byte string of a fixed length, such as a code's hash.
#[derive(Clone, Debug, PartialEq, Eq)]
pub struct BytesN<const N: usize>(pub [u8; N]);
