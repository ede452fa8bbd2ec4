//! The journal of document 01: the 24 commands, their bytes and the reading of them, by edition.

mod command;
mod edition;
mod number;
mod read;
mod session;
mod write;

pub use command::{kinds, listed, Command, Kind, Numbers};
pub use edition::LATEST;
pub use number::{field_name, FIELDS, NARROW, TAGS};
pub use read::{edition_of, read, Step};
pub use session::{session, SESSION_LISTING};
pub use write::{field, header, journal, write, HEADER_SIZE};

/// Document 01's numbered refusals; 0 is acceptance.
pub mod answer {
    pub const ACCEPTED: u64 = 0;
    pub const PAUSED: u64 = 1;
    pub const BLACKLISTED: u64 = 2;
    pub const INVALID_INPUT: u64 = 3;
    pub const NOT_FOUND: u64 = 4;
    pub const ALREADY_EXISTS: u64 = 5;
    pub const UNAUTHORIZED: u64 = 6;
    pub const INVALID_TRANSITION: u64 = 7;
    pub const OFFER_EXPIRED: u64 = 8;
    pub const ALLOWANCE_SHORT: u64 = 9;
    pub const BALANCE_SHORT: u64 = 10;
    pub const OUT_OF_RANGE: u64 = 11;
    pub const NO_ROOM: u64 = 12;
    pub const JOURNAL_MALFORMED: u64 = 13;
    pub const BUFFER_SHORT: u64 = 14;
    pub const BOOK_UNSOUND: u64 = 15;
}
